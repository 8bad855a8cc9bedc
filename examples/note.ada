-- A note before and after it is sent: a holder keeps one text, or none.
type Note is bounded holder (string);
Draft : Note (20);
Sent : Note (12);                          -- room for 12 bytes
Last : string;
Draft.Is_Empty;
Draft.Element;                             -- refused: there is none
Draft.Replace_Element ("Meet at noon");
update Draft as N do
  N := "Meet at half past three";          -- refused: it has 23 bytes
  N := "Meet at three";
  Draft.Clear;                             -- refused: a name stands for the element
end;
Sent.Assign (Draft);                       -- refused: 13 bytes
Draft.Replace_Element ("Meet at 3");
Sent.Move (Draft);                         -- Draft is empty then
Draft.Print;
query Sent as N do
  Last := N;
  Draft.Assign (Sent);                     -- Sent stays as it is
  Draft.Swap (Sent);                       -- refused: this would change it
end;
Draft.Equal (Sent);
Sent.Replace_Element ("Late!");
Sent.Swap (Draft);
Draft.Print;
Sent.Print;
