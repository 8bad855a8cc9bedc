-- A document's outline: chapters with sections, which are added, moved, copied and dropped.
type Outline is tree (string);
Doc : Outline;
Draft : Outline;
Top : Outline.cursor;
Intro : Outline.cursor;
Main : Outline.cursor;
Here : Outline.cursor;
Top := Doc.Root;
Doc.Append_Child (Top, "Introduction");
Doc.Append_Child (Top, "Design");
Intro := Doc.First_Child (Top);
Main := Doc.Last_Child (Top);
Doc.Append_Child (Main, "Lists");
Doc.Insert_Child (Main, no_element, "Trees", Here);
Doc.Insert_Child (Main, Here, "Maps");     -- before Trees
Doc.Print;
Doc.Depth (Here);
Doc.Insert_Child (Intro, Here, "Terms");   -- refused: Trees is no section of Introduction
Here := Doc.Find ("Lists");
Doc.Splice_Subtree (Intro, no_element, Here);
Doc.Print;                                 -- Lists is now of Introduction, and Here stays with it
Doc.Splice_Subtree (Here, no_element, Intro); -- refused: a chapter doesn't go below itself
for C in Doc loop
  Doc.Element (C);
  Doc.Child_Count (C);
  Doc.Delete_Leaf (Here);                  -- refused: a loop runs over the outline
end loop;
Top := Draft.Root;
Draft.Copy_Subtree (Top, no_element, Doc, Main);
Top := Doc.Root;
Doc.Delete_Leaf (Main);                    -- refused: it has sections
Doc.Delete_Subtree (Main);
Doc.Is_Leaf (Main);                        -- of No_Element
Doc.Node_Count;
Main := Draft.Find ("Maps");
Doc.Splice_Subtree (Here, no_element, Draft, Main);
Doc.Print;
Doc.Depth (Main);
Main := Doc.Ancestor_Find (Main, "Introduction");
Doc.Swap (Main, Here);
Doc.Print;
Draft.Print;
Draft.Equal (Doc);
