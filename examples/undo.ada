-- An editor's undo list: what is undone can be done again, until something new is done.
type Steps is list (string);
Undo : Steps;
Redo : Steps;
Last : Steps.cursor;
Undo.Append ("type a");
Undo.Append ("type b");
Undo.Append ("delete b");
Last := Undo.Last;
Redo.Splice (no_element, Undo, Last);      -- undone
Last := Undo.Last;
Redo.Splice (no_element, Undo, Last);
Redo.Print;
Last := Redo.Last;
Undo.Splice (no_element, Redo, Last);      -- done again
Undo.Append ("type c");                    -- something new
Redo.Clear;
declare
  Copy : Steps;
begin
  Copy.Assign (Undo);
  Copy.Equal (Undo);
  query Copy at Last as S do
    Copy.Clear;
  end;
end;
query Undo at Last as S do
  Undo.Replace_Element (Last, "type x");   -- refused: a view looks at an element
end;
stable Undo do
  Undo.Is_Sorted;
end;
Undo.Print;
