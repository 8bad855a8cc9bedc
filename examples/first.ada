type L is list (integer);
A : L;
A.Append (5, 2);
for C in A loop A.Append (7); end loop;    -- refused: a loop runs over A
A.Print;
