TYPE L is list(Integer); Stock : L; -- case and layout are free
Stock.Print; Stock.Append (- 007);
stock.append (9223372036854775807);

STOCK.PRINT;