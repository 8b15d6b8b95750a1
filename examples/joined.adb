--  joined RECORDING: joins a recording's datagrams from Ada, and prints the lines that ./replay prints.
pragma Ada_2012;
with Ada.Command_Line, Ada.Exceptions, Ada.Streams.Stream_IO, Ada.Text_IO, Interfaces, Nyrkovash;
use Ada.Streams.Stream_IO, Ada.Text_IO, Interfaces, Nyrkovash;

procedure Joined is
   use type Nyr_Size;
   Ended : exception;
   File  : Ada.Streams.Stream_IO.File_Type;

   procedure Play (Recording : Nyr_Bytes) is
      Place : Nyr_Size := 1;

      function Part (Length : Nyr_Size) return Nyr_Bytes is
      begin
         if Recording'Last + 1 - Place < Length then
            raise Ended with "cut short";
         end if;
         Place := Place + Length;
         return Recording (Place - Length .. Place - 1);
      end Part;

      function Number (B : Nyr_Bytes) return Nyr_Size is
        (if B'Length = 0 then 0 else Number (B (B'First .. B'Last - 1)) * 256 + Nyr_Size (B (B'Last)));

      Channels : constant Nyr_Size := Number (Part (2));
      Room     : constant Nyr_Size := Number (Part (4));
      Can_Be   : constant Boolean :=
        Channels in 1 .. Nyr_Channels and then Room in Nyr_Smallest_Room .. 65_536 / Channels;
      Ids      : Nyr_Ids (1 .. (if Can_Be then Channels else 0));
      Rooms    : Nyr_Bytes (1 .. Ids'Length * Room);
      Joiner   : Nyr_Joiner;
      Taken    : Nyr_Taken;
      Refused  : Unsigned_32;
      Count    : Unsigned_32 := 0;
   begin
      for Id of Ids loop
         Id := Unsigned_16 (Number (Part (2)));
      end loop;
      if Nyr_Setup (Joiner, Ids, Ids'Length, Unsigned_32 (Room), Rooms'Length) /= Nyr_OK then
         raise Ended with "setup refused" & Integer'Image (Nyr_No_Joiner);
      end if;
      while Place <= Recording'Last loop
         declare
            Datagram : constant Nyr_Bytes := Part (Number (Part (2)));
            Line     : constant String := Unsigned_32'Image (Count);
         begin
            Refused := Nyr_Take (Joiner, Rooms, Rooms'Length, Datagram, Datagram'Length, Taken);
            Put (Line (2 .. Line'Last) & " ");
            Put_Line
              (if Refused /= Nyr_OK then "refused" & Unsigned_32'Image (Refused)
               else (case Taken.Outcome is
                        when Nyr_Repeated => "repeated", when Nyr_Delivered => "delivered", when Nyr_Held => "held",
                        when Nyr_Stray => "stray", when others => "too long")
                     & Unsigned_64'Image (Taken.Missed) & Unsigned_64'Image (Taken.Bytes));
            Count := Count + 1;
         end;
      end loop;
   end Play;
begin
   if Nyr_Linked_Version / 10_000 /= Nyr_Library_Version / 10_000 or else Nyr_Linked_Version < Nyr_Library_Version then
      raise Program_Error with "compiled for " & Nyr_Library_Version_Text & ", linked with another library";
   end if;
   Open (File, In_File, Ada.Command_Line.Argument (1));
   declare
      Recording : Nyr_Bytes (1 .. Nyr_Size (Size (File)));
   begin
      Nyr_Bytes'Read (Stream (File), Recording);
      Play (Recording);
   end;
exception
   when Why : Ended => Put_Line (Ada.Exceptions.Exception_Message (Why));
end Joined;
