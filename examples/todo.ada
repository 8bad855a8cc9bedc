-- A list of things to do: what is urgent goes to the front, what is done goes.
type Jobs is list (string);
Todo : Jobs;
Done : Jobs;
Here : Jobs.cursor;
Todo.Append ("write the report");
Todo.Append ("call the bank");
Todo.Prepend ("pay the rent");
Todo.Print;
Here := Todo.Find ("call the bank");
Done.Splice (no_element, Todo, Here);      -- it is done, and Here stays with it
Done.Element (Here);
Todo.Has_Element (Here);
for T of Todo loop
  Todo.Append ("never");                   -- refused: a loop runs over Todo
end loop;
Todo.Print;
Done.Print;
