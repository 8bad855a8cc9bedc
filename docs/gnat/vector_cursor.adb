--  A vector's cursor, behind an insertion before its element.
with Ada.Containers.Vectors;
with Ada.Text_IO; use Ada.Text_IO;

procedure Vector_Cursor is
   package Vectors is new Ada.Containers.Vectors (Positive, Integer);
   use Vectors;
   V : Vector;
   C : Cursor;
begin
   V.Append (10);
   V.Append (20);
   C := V.To_Cursor (2);
   Put_Line ("Element:" & Element (C)'Image);
   V.Insert (Before => 1, New_Item => 5);
   Put_Line ("Element:" & Element (C)'Image);
end Vector_Cursor;
