--  A call that puts another element in an element's place, inside a loop whose name stands for that element.
with Ada.Containers.Vectors;
with Ada.Exceptions; use Ada.Exceptions;
with Ada.Text_IO; use Ada.Text_IO;

procedure Element_Loop is
   package Vectors is new Ada.Containers.Vectors (Positive, Integer);
   V : Vectors.Vector;
begin
   V.Append (1);
   for E of V loop
      V.Replace_Element (1, 4);
      Put_Line ("E:" & E'Image);
   end loop;
exception
   when E : others => Put_Line (Exception_Name (E));
end Element_Loop;
