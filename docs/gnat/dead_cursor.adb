--  A list's cursor whose element is gone, while another element came.
with Ada.Containers.Doubly_Linked_Lists;
with Ada.Text_IO; use Ada.Text_IO;

procedure Dead_Cursor is
   package Lists is new Ada.Containers.Doubly_Linked_Lists (Integer);
   use Lists;
   A : List;
   C : Cursor;
   D : Cursor;
begin
   A.Append (1);
   C := A.First;
   D := C;
   A.Delete (C);
   A.Append (2);
   Put_Line ("Has_Element: " & Has_Element (D)'Image);
   Put_Line ("Element:" & Element (D)'Image);
end Dead_Cursor;
