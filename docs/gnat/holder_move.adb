--  A holder that gets a copy and then what it was copied from; and one that gets a copy while a reference is open.
with Ada.Containers.Indefinite_Holders;
with Ada.Text_IO; use Ada.Text_IO;

procedure Holder_Move is
   package Holders is new Ada.Containers.Indefinite_Holders (String);
   use Holders;
   A, B, C : Holder;
begin
   A.Replace_Element ("one");
   B.Assign (A);
   B.Move (A);
   Put_Line ("the source is empty: " & A.Is_Empty'Image);
   declare
      R : constant Reference_Type := B.Reference;
   begin
      C.Assign (B);
      R (1) := 'O';
   end;
   Put_Line ("the copy holds " & C.Element);
end Holder_Move;
