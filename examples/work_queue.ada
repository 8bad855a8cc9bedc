-- A repair desk: orders wait by priority, a clerk hands them out one by one, and a worker reports each.
type Orders is priority_queue (integer);     -- the priority of an integer is a hundredth of it
type Tray is bounded queue (integer);
Waiting : Orders;
Desk : Tray (1);
Reports : Tray (1);
Urgent : integer;
Waiting.Enqueue (105);
Waiting.Enqueue (320);                       -- priority 3 goes before priority 1
Waiting.Enqueue (117);
Waiting.Print;
Desk.Dequeue;                                -- would wait, and nobody else is there
tasks
  task Clerk is
    Order : integer;
    Report : integer;
  begin
    Order := Waiting.Dequeue;
    Desk.Enqueue (Order);
    Report := Reports.Dequeue;
    Order := Waiting.Dequeue;
    Desk.Enqueue (Order);
    Report := Reports.Dequeue;
    Report := Reports.Dequeue;               -- waits for a third report, which never comes
  end;
  task Worker is
    Order : integer;
  begin
    Order := Desk.Dequeue;
    Reports.Enqueue (Order);
    Order := Desk.Dequeue;
    Reports.Enqueue (Order);
  end;
end tasks;
Waiting.Print;
Urgent := Waiting.Dequeue_Only_High_Priority (2);
Waiting.Peak_Use;
