--  places TABLE: payloads of the example's type 5 (a mode, and up to 4 tracks of a uint16 and two float32) unpacked and
--  packed from Ada, and of type 3 (one track) by its plan; of Nyr_Walked the fields that each call writes, and those
--  that it leaves.
pragma Ada_2012;
with Ada.Command_Line, Ada.Streams.Stream_IO, Ada.Text_IO, Interfaces, Nyrkovash;
use Ada.Command_Line, Ada.Streams.Stream_IO, Interfaces, Nyrkovash;

procedure Places is
   use type Nyr_Size;
   Before : constant Nyr_Walked := (Given => 111, At_Item => 222, Leaves => 333);
   Track  : constant Unsigned_16 := 5;
   One    : constant Unsigned_16 := 3;
   Good   : constant Nyr_Words := (4, 2, 1, 16#3FC0_0000#, 0, 16#102#, 16#42C8_0000#, 0);
   Bad    : constant Nyr_Words := (4, 5);
   Walked : Nyr_Walked := Before;
   File   : Ada.Streams.Stream_IO.File_Type;

   procedure Expect (Number, Right : Unsigned_32; Then_Walked : Nyr_Walked) is
   begin
      if Number /= Right or else Walked /= Then_Walked then
         Ada.Text_IO.Put_Line
           ("not" & Right'Image & " but" & Number'Image & Walked.Given'Image & Walked.At_Item'Image
            & Walked.Leaves'Image);
         Set_Exit_Status (Failure);
      end if;
      Walked := Before;
   end Expect;
begin
   Open (File, In_File, Argument (1));
   declare
      Table   : Nyr_Bytes (1 .. Nyr_Size (Size (File)));
      Payload : Nyr_Bytes (1 .. 40) := (others => 7);
      Words   : Nyr_Words (1 .. 9) := (others => 7);
      Plans   : Nyr_Words (1 .. 20) := (others => 7);
      Needed  : Nyr_Size := 0;
      Known   : Nyr_Sections := (Words => (others => 0));

      function Unpacked (Length, Room : Nyr_Size) return Unsigned_32 is
        (Nyr_Unpack (Table, Table'Length, Track, Payload, Length, Words, Room, Walked));

      function Packed (From : Nyr_Words) return Unsigned_32 is
        (Nyr_Pack (Table, Table'Length, Track, From, From'Length, Payload, Payload'Length, Walked));

      function Unpacked_By (Length : Nyr_Size) return Unsigned_32 is
        (Nyr_Unpack_By (Table, Table'Length, Known, Plans, Needed, One, Payload, Length, Words, Words'Length, Walked));

      function Packed_By (From : Nyr_Words) return Unsigned_32 is
        (Nyr_Pack_By (Table, Table'Length, Known, Plans, Needed, One, From, From'Length, Payload, Payload'Length,
                      Walked));
   begin
      Nyr_Bytes'Read (Stream (File), Table);
      Expect (Packed (Good), Nyr_OK, (25, 222, 333));
      Expect (Unpacked (25, 9), Nyr_OK, (8, 222, 333));
      Expect (Unpacked (20, 9), Nyr_Input_Short, (111, 17, 6));
      Expect (Unpacked (26, 9), Nyr_Input_Left, (111, 25, 8));
      Expect (Unpacked (25, 7), Nyr_Output_Short, Before);
      Expect (Packed (Good (Good'First .. Good'First + 6)), Nyr_Input_Short, (111, 7, 7));
      Expect (Packed (Bad), Nyr_Array_Count, (111, 1, 1));
      Payload (18 .. 19) := (others => 255);
      Expect (Unpacked (25, 9), Nyr_Value, (111, 17, 6));
      Expect (Nyr_Check_Table (Table, Table'Length, Known), Nyr_OK, Before);
      Expect (Nyr_Plans_Length (Table, Table'Length, Known, Needed), Nyr_OK, Before);
      Expect (Nyr_Plans (Table, Table'Length, Known, Plans, Needed - 1), Nyr_No_Room, Before);
      Expect (Nyr_Plans (Table, Table'Length, Known, Plans, Needed), Nyr_OK, Before);
      Expect (Packed_By (Good (Good'First + 2 .. Good'First + 4)), Nyr_OK, (10, 222, 333));
      Expect (Unpacked_By (10), Nyr_OK, (3, 222, 333));
      Expect (Unpacked_By (9), Nyr_Input_Short, (111, 6, 2));
      Expect (Packed_By (Good (Good'First + 2 .. Good'First + 3)), Nyr_Input_Short, (111, 2, 2));
   end;
end Places;
