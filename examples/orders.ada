-- Orders from a shelf: what isn't there is put aside, and the other orders go on.
pragma Propagate;
type Shelves is ordered_map (string, integer);
type Orders is list (string);
Shelf : Shelves;
Wanted : Orders;
Missing : Orders;
Left : integer;
Shelf.Insert ("tea", 2);
Shelf.Insert ("rye", 1);
Wanted.Append ("tea");
Wanted.Append ("figs");
Wanted.Append ("rye");
for Item of Wanted loop
  begin
    Left := Shelf.Element (Item);          -- raises where there is none
    Left := Left - 1;
    Shelf.Replace (Item, Left);
  exception
    when Constraint_Error =>
      Missing.Append (Item);
  end;
end loop;
Shelf.Print;
Missing.Print;
begin
  for Item of Wanted loop
    Wanted.Clear;                          -- refused: a loop runs over it
  end loop;
exception
  when Program_Error =>
    Wanted.Clear;                          -- the loop was left
end;
Missing.Move (Wanted);
Missing.First_Element;                     -- no handler takes this: the script ends
Missing.Print;
