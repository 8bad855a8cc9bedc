--  A cursor of one list, in a call that means another: the function isn't told which.
with Ada.Containers.Doubly_Linked_Lists;
with Ada.Exceptions; use Ada.Exceptions;
with Ada.Text_IO; use Ada.Text_IO;

procedure Foreign_Cursor is
   package Lists is new Ada.Containers.Doubly_Linked_Lists (Integer);
   use Lists;
   A, B : List;
   C : Cursor;
begin
   A.Append (1);
   B.Append (2);
   C := B.First;
   Put_Line ("Element:" & Element (C)'Image);
   Put_Line ("Has_Element: " & Has_Element (C)'Image);
   A.Replace_Element (C, 3);
exception
   when E : others => Put_Line (Exception_Name (E));
end Foreign_Cursor;
