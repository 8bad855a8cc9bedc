--  A call that adds nodes to a tree, inside a loop over it.
with Ada.Containers.Multiway_Trees;
with Ada.Exceptions; use Ada.Exceptions;
with Ada.Text_IO; use Ada.Text_IO;

procedure Copy_Subtree is
   package Trees is new Ada.Containers.Multiway_Trees (Integer);
   use Trees;
   A : Tree;
   First : Cursor;
   Met : Natural := 0;
begin
   A.Append_Child (A.Root, 1);
   First := First_Child (A.Root);
   for C in A.Iterate loop
      Met := Met + 1;
      if Met <= 3 then
         A.Copy_Subtree (A.Root, No_Element, First);
      end if;
   end loop;
   Put_Line ("nodes met:" & Met'Image & ", nodes:" & Natural'Image (Natural (A.Node_Count) - 1));
exception
   when E : others => Put_Line (Exception_Name (E));
end Copy_Subtree;
