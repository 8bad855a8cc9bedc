-- A parcel desk: each parcel is kept by its number, with where it is now.
type Desk is ordered_set (string) keyed;
Parcels : Desk;
Sent : Desk;
Next : Desk.cursor;
Where : string;
Parcels.Insert ("P07=shelf 2");
Parcels.Insert ("P03=shelf 1");
Parcels.Insert ("P12=gate");
Parcels.Insert ("P03=shelf 9");             -- refused: P03 is there
Parcels.Key_Contains ("P07");
Where := Parcels.Key_Element ("P07");
Next := Parcels.Key_Find ("P07");
update_key Parcels at Next as Parcel do
  Parcel := "P07=lorry";                    -- the copy: it is put back at the end
  Parcels.Key_Element ("P07");
  Parcels.Key_Delete ("P03");               -- refused: a parcel is being moved
end;
Parcels.Print;
Next := Parcels.Key_Ceiling ("P08");        -- the next number from P08 on
Parcels.Key (Next);
update_key Parcels at Next as Parcel do
  Parcel := "P21=gate";                     -- another number: P12 goes
end;
Parcels.Key_Replace ("P03", "P04=shelf 1"); -- a new number on purpose
Parcels.Key_Replace ("P12", "P13=gate");
for P in Parcels loop
  Where := Parcels.Key (P);
  update_key Parcels at P as Parcel do      -- refused: a loop runs over the parcels
    Parcel := "";
  end;
end loop;
Sent.Insert ("P07=sent");
Parcels.Difference (Sent);
Parcels.Print;
