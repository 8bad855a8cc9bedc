-- A log without its repetitions: each message once, as it came first, and those that are new today.
type Log is vector (string);
type Messages is hashed_set (string);
type Index is ordered_set (string);
Today : Log;
Once : Messages;
Known : Messages;
News : Messages;
Here : Messages.cursor;
Order : Index;
Near : Index.cursor;
Today.Append ("disk full");
Today.Append ("login ada");
Today.Append ("disk full", 2);
Today.Append ("login bob");
Known.Insert ("reboot");
Known.Insert ("login ada");
for M of Today loop
  Once.Insert (M, Here);                   -- false for a repetition
end loop;
Today.Length;
Once.Length;
Once.Print;
News.Assign (Once);
News.Difference (Known);
News.Print;
Known.Overlap (Once);
Known.Is_Subset (Once);
Known.Union (Once);
Known.Print;
Known.Equivalent_Sets (Once);
Once.Is_Subset (Known);
for M of Known loop
  Order.Insert (M);
  Known.Exclude ("reboot");                -- refused: a loop runs over the messages
end loop;
Order.Print;
Near := Order.Ceiling ("login");           -- the first message from login on
Order.Element (Near);
Near := Order.Next (Near);
Order.Element (Near);
Order.Delete_First;
Order.Delete (Near);
Order.Replace_Element (Near, "logout bob"); -- refused: its message is gone
Order.Print;
Known.Symmetric_Difference (News);
Known.Print;
