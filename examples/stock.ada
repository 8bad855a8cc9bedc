-- A shop's stock: how much is there of what, by name, and the prices in order of their names.
type Stock is hashed_map (string, integer);
type Prices is ordered_map (string, integer);
Shelf : Stock;
Price : Prices;
Here : Stock.cursor;
Near : Prices.cursor;
Name : string;
Left : integer;
Shelf.Insert ("tea", 4);
Shelf.Insert ("milk", 12);
Shelf.Insert ("bread", 7);
Shelf.Insert ("tea", 9);                   -- refused: tea is there
Shelf.Include ("tea", 9);                  -- a delivery: tea keeps its place
Here := Shelf.Find ("milk");
update Shelf at Here as N do
  N := N - 1;                              -- one is sold
  Shelf.Replace ("milk", 0);               -- refused: a name stands for an element
end;
Price.Insert ("milk", 110);
Price.Insert ("bread", 250);
for C in Shelf loop
  Name := Shelf.Key (C);
  Price.Contains (Name);
  Shelf.Exclude (Name);                    -- refused: a loop runs over the shelf
end loop;
Left := Shelf.Element ("milk");
Left := Left - 11;
Shelf.Delete ("rye");                      -- refused: there is none
Shelf.Delete ("bread");
Shelf.Print;
Price.Element ("tea");                     -- refused: it has no price
Price.Include ("tea", 320);
Near := Price.Ceiling ("c");               -- the first name from c on
Price.Key (Near);
Price.Replace_Element (Near, 115);
for P of reverse Price loop
  P := P + 5;
end loop;
Price.First_Key;
Price.Last_Element;
Price.Print;
