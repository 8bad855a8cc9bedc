-- A cafe's tabs in cents, and its orders by number. With --save the state follows, and tabs_later.ada goes on from it.
type Tabs is ordered_map (string, integer);
type Orders is bounded queue (integer);
type Log is bounded list (string);
Open : Tabs;
Waiting : Orders (4);
Notes : Log (3);
Here : Tabs.cursor;
Day : integer;
Day := 1;
Open.Insert ("ada", 450);
Open.Insert ("grace", 1200);
Here := Open.Find ("ada");
update Open at Here as Owed do
  Owed := Owed + 250;
end;
Waiting.Enqueue (17);
Waiting.Enqueue (18);
Waiting.Enqueue (19);
Waiting.Dequeue;                           -- order 17 is served
Notes.Append ("grace: no sugar");
Open.Print;
