-- A till: each receipt in cents, a refund below zero, and how often each article was sold.
-- With --ask "$(cat till.ask)" the total of the receipts that aren't refunds follows.
type Receipts is vector (integer);
type Counts is ordered_map (string, integer);
Day : Receipts;
Sold : Counts;
Here : Counts.cursor;
Day.Append (1250);
Day.Append (399);
Day.Append (-399);                         -- a refund
Day.Append (2100);
Sold.Insert ("bun", 12);
Sold.Insert ("loaf", 5);
Here := Sold.Find ("loaf");
update Sold at Here as N do
  N := N + 1;
end;
Day.Print;
Sold.Print;
