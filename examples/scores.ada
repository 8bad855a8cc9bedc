-- The scores of a game: the best three stay, by their places.
type Scores is vector (integer);
type Podium is bounded vector (integer);
Board : Scores;
Best : Podium (3);
Mine : Scores.cursor;
Last : integer;
Board.Append (70);
Board.Append (95);
Board.Append (58);
Mine := Board.To_Cursor (2);
Board.Insert (1, 83);                      -- Mine stays with 95
Board.To_Index (Mine);
Board.Element (Mine);
Board.Sort;
Board.Reverse_Elements;                    -- places keep their cursors, and values move
Board.Print;
Board.Element (Mine);
for S of Board loop
  Best.Append (S);
end loop;
Best.Print;
Last := Board.Last_Index;
Board.Replace_Element (Last, 60);
Board.Swap (3, 4);
Board.Find_Index (60);
Board.Delete (5);                          -- one behind the last: nothing goes
Board.Delete (6);
Board.Append_Vector (Board);
Board.Reverse_Find_Index (95);
Board.Set_Length (2);
Board.Print;
Board.Capacity;
