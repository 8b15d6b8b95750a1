--  partners: the worked status of request 8 written for Issue 3 from Ada, and read by its sender's issue; then heard by
--  a platform, services told, and a request sent; of every struct the fields that each call writes, and those that it
--  leaves.
pragma Ada_2012;
with Ada.Command_Line, Ada.Text_IO, Interfaces, Nyrkovash;
use Ada.Command_Line, Interfaces, Nyrkovash;

procedure Partners is
   use type Nyr_Size;
   Right   : constant Nyr_Bytes :=
     (16#EC#, 16#0A#, 16#10#, 7, 0, 0, 0, 1, 0, 0, 0, 5, 0, 0, 0, 6, 0, 0, 0, 8, 0, 0, 0, 9,
      0, 0, 0, 1, 16#11#, 16#22#, 16#33#, 16#44#);
   Before  : constant Nyr_Any_Message := (71, 72, 73, 74, 75, 76, 77, 78, 79, 80);
   Payload : constant Nyr_Bytes := Right (Right'First + Nyr_Message_Header_3 .. Right'Last);
   Set_Up  : Nyr_Partners := (Words => (others => 0));
   Output  : Nyr_Bytes (1 .. 40) := (others => 170);
   Written : Nyr_Size := 99;
   Read    : Nyr_Any_Message := Before;

   procedure Expect (Holds : Boolean; What : String) is
   begin
      if not Holds then
         Ada.Text_IO.Put_Line ("not so: " & What);
         Set_Exit_Status (Failure);
      end if;
   end Expect;

   function Write (Room : Nyr_Size) return Unsigned_32 is
     (Nyr_Write_3 (7, 5, 6, Nyr_Platform_Domain, Nyr_Status_3, 9, Payload, Payload'Length, Output, Room, Written));

   function Read_It (Length : Nyr_Size) return Unsigned_32 is (Nyr_Read_Mixed (9, Set_Up, Output, Length, Read));

   --  One type, uint8, and operation 7, whose requests we send; neither these nor their responses have a payload.
   Table      : constant Nyr_Bytes :=
     (0, 1, 0, 0, 0, 6, 0, 0, 0, 0, 0, 0, 0, 0, 0, 1, 0, 0, 0, 7, 0, 2, 255, 255, 255, 255);
   --  Service 77 is AVAILABLE.
   Told       : constant Nyr_Bytes :=
     (16#EC#, 16#0A#, 16#10#, 7, 0, 0, 0, 3, 0, 0, 0, 5, 0, 0, 0, 6, 0, 0, 0, 12, 0, 0, 0, 9,
      0, 0, 0, 1, 0, 0, 0, 77, 0, 0, 0, 1);
   Stamp      : constant Nyr_Stamp := (2, 3, 99);
   Ours       : constant Nyr_Words := (Nyr_Service_Word (21, Nyr_Available), Nyr_Service_Word (22, Nyr_Unavailable));
   Unheard_Of : constant Nyr_Any_Heard := (71, 72, 73, 74, 75, 76, 77, 78, 79, 80, 81, 82);
   Platform   : Nyr_Platform;
   Sections   : Nyr_Sections;
   Services   : Nyr_Words (0 .. Nyr_Services_Words - 1) := (others => 0);
   Replies    : Nyr_Bytes (1 .. 90) := (others => 170);
   Heard      : Nyr_Any_Heard := Unheard_Of;
   Sent       : Nyr_Sent := (91, 92);

   function Hear (Message : Nyr_Bytes; Words, Room : Nyr_Size) return Unsigned_32 is
     (Nyr_Receive_Mixed (9, Stamp, Set_Up, Ours, Ours'Length, Platform, Services, Words, Table, Table'Length, Message,
                         Message'Length, Replies, Room, Heard));

   function Hear_In (Message : Nyr_Bytes) return Unsigned_32 is
     (Nyr_Receive_Mixed_In (9, Stamp, Set_Up, Ours, Ours'Length, Platform, Services, Services'Length, Table,
                            Table'Length, Sections, Message, Message'Length, Replies, 90, Heard));

   function Send (Target : Unsigned_32; Room : Nyr_Size) return Unsigned_32 is
     (Nyr_Send_Mixed (9, Stamp, Set_Up, Platform, Table, Table'Length, Sections, 7, Target, Payload, 0, Replies, Room,
                      Sent));

   function Known (Words : Nyr_Size) return Unsigned_32 is (Nyr_Service (Set_Up, Services, Words, 7, 77));
begin
   Expect (Write (31) = Nyr_No_Room and then Written = 99 and then Output (1) = 170, "10 leaves all");
   Expect (Write (40) = Nyr_OK and then Written = 32, "written");
   Expect (Output (1 .. 32) = Right and then Output (33) = 170, "these bytes, and no other");
   Expect (Read_It (32) = Nyr_Version and then Read = Before, "3 where 7 speaks Issue 6, and nothing read");
   Expect (Nyr_Partners_Set (Set_Up, 256 + 7, Nyr_Issue_3) = Nyr_OK and then Set_Up.Words = (0, 0, 0, 0), "263 is none");
   Expect (Nyr_Partners_Set (Set_Up, 7, Nyr_Issue_3) = Nyr_OK and then Set_Up.Words = (128, 0, 0, 0), "7 is set up");
   Expect (Read_It (23) = Nyr_Message_Short and then Read = Before, "1 below 24 bytes");
   Expect (Read_It (32) = Nyr_OK, "read");
   Expect (Read = (Nyr_Status, 1, 7, 9, 24, 8, Nyr_Issue_3, 5, 6, 16#1122_3344#), "the status as it was written");

   Expect (Nyr_Start (9, Platform) = Nyr_OK and then Nyr_Check_Table (Table, Table'Length, Sections) = Nyr_OK, "started");
   Expect (Hear (Right, 0, 87) = Nyr_No_Room and then Heard = Unheard_Of and then Replies (1) = 170, "10 for 88 bytes");
   Expect (Hear (Right, 0, 90) = Nyr_OK, "heard");
   Expect (Heard = (Nyr_Heard_Status, 1, 7, 9, 0, 0, 0, Nyr_Replies_3_Bytes, Nyr_Issue_3, 5, 6, 16#1122_3344#), "UP of 7");
   Expect (Replies (1 .. 4) = (16#EC#, 16#0A#, 16#10#, 9) and then Replies (29 .. 32) = (0, 0, 0, 99)
           and then Replies (81 .. 89) = (0, 0, 0, 2, 255, 255, 255, 255, 170), "three replies, and nothing behind them");
   Expect (Hear (Told, 255, 90) = Nyr_No_Room and then Services (0) = 0, "10 for a block that is not there");
   Expect (Hear_In (Told) = Nyr_OK, "services heard");
   Expect (Heard = (Nyr_Heard_Services, 1, 7, 9, 0, 24, 12, 0, Nyr_Issue_3, 5, 6, 0), "one service is told");
   Expect (Services (0) = Nyr_Service_Word (77, Nyr_Available) and then Services (1) = 0, "and noted");
   Expect (Known (256) = Nyr_Available and then Known (0) = Nyr_Unheard, "as it is asked for");
   Expect (Send (7, 23) = Nyr_No_Room and then Sent = (91, 92), "10 for a request of 24 bytes");
   Expect (Send (7, 24) = Nyr_OK and then Sent = (24, 3) and then Replies (3) = 16#11#, "a request of Issue 3");
   Expect (Send (8, 24) = Nyr_OK and then Sent = (20, 4) and then Replies (3) = 2, "a request of Issue 6");
end Partners;
