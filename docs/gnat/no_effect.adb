--  Calls that tamper with cursors, inside a loop, where they change nothing.
with Ada.Containers.Doubly_Linked_Lists;
with Ada.Containers.Ordered_Sets;
with Ada.Containers.Vectors;
with Ada.Exceptions; use Ada.Exceptions;
with Ada.Text_IO; use Ada.Text_IO;

procedure No_Effect is
   package Lists is new Ada.Containers.Doubly_Linked_Lists (Integer);
   package Sorting is new Lists.Generic_Sorting;
   package Sets is new Ada.Containers.Ordered_Sets (Integer);
   package Vectors is new Ada.Containers.Vectors (Positive, Integer);
   A : Lists.List;
   S : Sets.Set;
   V : Vectors.Vector;

   procedure Try (Name : String; Call : not null access procedure) is
   begin
      Call.all;
      Put_Line (Name & ": done");
   exception
      when E : others => Put_Line (Name & ": " & Exception_Name (E));
   end Try;

   procedure Append_One is begin A.Append (7); end Append_One;
   procedure Append_None is begin V.Append (7, 0); end Append_None;
   procedure Assign_Itself is begin A.Assign (A); end Assign_Itself;
   procedure Sort_One is begin Sorting.Sort (A); end Sort_One;
   procedure Exclude_Absent is begin S.Exclude (9); end Exclude_Absent;
begin
   A.Append (1);
   S.Insert (1);
   for C in A.Iterate loop
      Try ("Append", Append_One'Access);
      Try ("Assign to itself", Assign_Itself'Access);
      Try ("Sort of one", Sort_One'Access);
   end loop;
   V.Append (1);
   for C in V.Iterate loop
      Try ("Append of none to a vector", Append_None'Access);
   end loop;
   for C in S.Iterate loop
      Try ("Exclude of what is absent", Exclude_Absent'Access);
   end loop;
end No_Effect;
