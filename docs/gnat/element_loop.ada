type T is vector (integer);
V : T;
V.Append (1);
for E of V loop
  V.Replace_Element (1, 4);
end loop;
V.Print;
