type T is tree (integer);
A : T;
R : T.cursor;
First : T.cursor;
R := A.Root;
A.Append_Child (R, 1);
First := A.First_Child (R);
for C in A loop
  A.Copy_Subtree (R, no_element, A, First);
end loop;
A.Node_Count;
