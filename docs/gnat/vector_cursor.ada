type T is vector (integer);
V : T;
C : T.cursor;
V.Append (10);
V.Append (20);
C := V.To_Cursor (2);
V.Element (C);
V.Insert (1, 5);
V.Element (C);
