-- Readings of two sensors, sorted and merged; outliers go.
type Readings is list (integer);
North : Readings;
South : Readings;
Here : Readings.cursor;
Next : Readings.cursor;
Low : integer;
North.Append (21);
North.Append (-40);
North.Append (19);
South.Append (20);
South.Append (22);
South.Append (500);
North.Sort;
South.Sort;
North.Merge (South);
North.Print;
South.Is_Empty;
North.Delete_First;
North.Delete_Last;
Low := North.First_Element;
Low := Low - 1;
for R of North loop
  R := Low;                                -- writes each element
end loop;
Here := North.First;
Next := North.Next (Here);
North.Swap_Links (Here, Next);
North.Previous (Here);
North.Print;
