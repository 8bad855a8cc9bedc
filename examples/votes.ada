-- Votes for a fruit: a map counts them, and a set has the names in order.
type Votes is list (string);
type Counts is hashed_map (string, integer);
type Names is ordered_set (string);
Cast : Votes;
Count : Counts;
Order : Names;
Here : Counts.cursor;
Near : Names.cursor;
Name : string;
Cast.Append ("plum");
Cast.Append ("apple", 2);
Cast.Append ("fig");
for V of Cast loop
  Count.Insert (V, 0, Here);               -- false where V is there already; Here is at it
  update Count at Here as N do
    N := N + 1;
  end;
end loop;
Count.Print;                               -- in order of arrival
Count.Element ("apple");
Count.Element ("pear");
for C in Count loop
  Name := Count.Key (C);
  Order.Insert (Name);
  Count.Exclude ("fig");                   -- refused: a loop runs over Count
end loop;
Order.Print;                               -- ascending
Near := Order.Floor ("cherry");            -- the last that isn't greater
Order.Element (Near);
Order.Replace_Element (Near, "plum");      -- refused: another element is equivalent
Order.Replace_Element (Near, "quince");    -- it goes to its place, and Near with it
Order.Print;
Order.Element (Near);
Count.Delete ("fig");
Count.Print;
