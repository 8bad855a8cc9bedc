type H is holder (string);
A : H;
B : H;
C : H;
A.Replace_Element ("one");
B.Assign (A);
B.Move (A);
A.Is_Empty;
reference R of B do
  C.Assign (B);
  R := "One";
end;
C.Element;
