--  A tree that is 131,072 nodes deep, assigned to another.
with Ada.Containers.Multiway_Trees;
with Ada.Exceptions; use Ada.Exceptions;
with Ada.Text_IO; use Ada.Text_IO;

procedure Deep_Tree is
   package Trees is new Ada.Containers.Multiway_Trees (Integer);
   use Trees;
   A, B : Tree;
   C : Cursor;
begin
   C := A.Root;
   for I in 1 .. 131_072 loop
      A.Append_Child (C, I);
      C := First_Child (C);
   end loop;
   Put_Line ("nodes:" & A.Node_Count'Image);
   B.Assign (A);
   Put_Line ("assigned");
exception
   when E : others => Put_Line (Exception_Name (E));
end Deep_Tree;
