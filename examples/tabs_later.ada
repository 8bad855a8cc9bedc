-- The next day of tabs.ada, resumed on the state that it leaves.
type Tabs is ordered_map (string, integer);
type Orders is bounded queue (integer);
type Log is bounded list (string);
type Sums is vector (integer);
Open : Tabs;
Waiting : Orders (4);
Notes : Log (3);
Paid : Sums;                               -- new: the state has nothing of it
Day : integer;
Owed : integer;
Day := Day + 1;
Owed := Open.Element ("ada");              -- ada pays
Paid.Append (Owed);
Open.Delete ("ada");
Open.Insert ("linus", 300);
Waiting.Dequeue;
Waiting.Peak_Use;                          -- of both days
Notes.Print;
Open.Print;
Paid.Print;
