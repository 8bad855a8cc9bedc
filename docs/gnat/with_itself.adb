--  Symmetric_Difference of an ordered set with itself, inside a loop over it.
with Ada.Containers.Ordered_Sets;
with Ada.Exceptions; use Ada.Exceptions;
with Ada.Text_IO; use Ada.Text_IO;

procedure With_Itself is
   package Sets is new Ada.Containers.Ordered_Sets (Integer);
   S : Sets.Set;
   Met : Natural := 0;
begin
   S.Insert (1);
   S.Insert (2);
   for C in S.Iterate loop
      Met := Met + 1;
      S.Symmetric_Difference (S);
      exit when Met = 3;
   end loop;
   Put_Line ("elements met:" & Met'Image & ", elements:" & S.Length'Image);
exception
   when E : others => Put_Line (Exception_Name (E));
end With_Itself;
