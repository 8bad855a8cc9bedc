type L is list (integer);
type T is vector (integer);
type S is ordered_set (integer);
A : L;
V : T;
B : S;
A.Append (1);
V.Append (1);
B.Insert (1);
for C in A loop
  A.Append (7);
  A.Assign (A);
  A.Sort;
end loop;
for C in V loop
  V.Append (7, 0);
end loop;
for C in B loop
  B.Exclude (9);
end loop;
