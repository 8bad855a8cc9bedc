type S is ordered_set (integer);
A : S;
A.Insert (1);
A.Insert (2);
for C in A loop
  A.Symmetric_Difference (A);
end loop;
A.Print;
