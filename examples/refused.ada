type L is list (integer);
A : L;
A.Append ("seven");
