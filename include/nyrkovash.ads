--  The calls of nyrkovash.h for Ada: its names, its order, its values. The header says what each call does, and the
--  gate compares the two. What differs:
--
--  A buffer is an array, or a slice of one, and its length: (Bytes, Bytes'Length). Of no elements it may be any.
--  What a call writes is `in out`, since a refusal leaves it as it was (of Nyr_Walked, what the header says); nothing is
--  null, and no two parameters of a call may be parts of one object where it writes either.
--  A place that a call answers counts from 0: byte K of B is B (B'First + K).
--  Ada has no case: the call nyr_library_version, beside the number NYR_LIBRARY_VERSION, is Nyr_Linked_Version.
--  A word of Ada's own is no name: the field `at` of nyr_walked is At_Item.
pragma Ada_2012;
with Interfaces; use Interfaces;
with Interfaces.C;

package Nyrkovash is
   pragma Preelaborate;

   subtype Nyr_Size is Interfaces.C.size_t;

   type Nyr_Bytes is array (Nyr_Size range <>) of Unsigned_8 with Convention => C;
   type Nyr_Ids is array (Nyr_Size range <>) of Unsigned_16 with Convention => C;
   type Nyr_Words is array (Nyr_Size range <>) of Unsigned_64 with Convention => C;

   Nyr_Library_Version : constant := 40_301;
   Nyr_Library_Version_Text : constant String := "4.3.1";

   function Nyr_Linked_Version return Unsigned_32
     with Import, Convention => C, External_Name => "nyr_library_version";

   --  The numbers that refuse.

   Nyr_OK : constant := 0;
   Nyr_Message_Short : constant := 1;
   Nyr_Mark : constant := 2;
   Nyr_Version : constant := 3;
   Nyr_Domain : constant := 4;
   Nyr_Payload_Size : constant := 5;
   Nyr_Sender : constant := 6;
   Nyr_Platform_Id : constant := 7;
   Nyr_Platform_Length : constant := 8;
   Nyr_Platform_Value : constant := 9;
   Nyr_No_Room : constant := 10;
   Nyr_No_Joiner : constant := 20;
   Nyr_Datagram_Length : constant := 21;
   Nyr_Datagram_Version : constant := 22;
   Nyr_Not_Set_Up : constant := 23;
   Nyr_Table_Length : constant := 30;
   Nyr_Table_Count : constant := 31;
   Nyr_Table_Entry : constant := 32;
   Nyr_Table_Size : constant := 33;
   Nyr_Input_Short : constant := 40;
   Nyr_Input_Left : constant := 41;
   Nyr_Value : constant := 42;
   Nyr_Array_Count : constant := 43;
   Nyr_No_Type : constant := 44;
   Nyr_Output_Short : constant := 45;
   Nyr_Cannot_Cut : constant := 50;
   Nyr_No_Piece : constant := 51;
   Nyr_Datagram_Room : constant := 52;
   Nyr_List_Full : constant := 60;
   Nyr_Not_Awaited : constant := 61;
   Nyr_No_Request : constant := 62;
   Nyr_Services_Full : constant := 63;

   --  Limits and sizes.

   Nyr_Channels : constant := 32;
   Nyr_Smallest_Room : constant := 24;
   Nyr_Largest_Room : constant := 65_560;
   Nyr_Message_Header : constant := 20;
   Nyr_Message_Header_3 : constant := 24;
   Nyr_Datagram_Header : constant := 4;
   Nyr_Largest_Piece : constant := 65_503;
   Nyr_Largest_Datagram : constant := 65_507;
   Nyr_Largest_Message : constant := 65_560;
   Nyr_Reply_Bytes : constant := 24;
   Nyr_Replies_Bytes : constant := 48;
   Nyr_Replies_3_Bytes : constant := 88;
   Nyr_Most_Pending : constant := 64;
   Nyr_Services_Words : constant := 256;
   Nyr_Plans_Words : constant := 131_329;

   --  Joining.

   type Nyr_Channel is record
      Sender : Unsigned_32;
      Seen   : Unsigned_32;
      Last   : Unsigned_32;
      Held   : Unsigned_32;
   end record with Convention => C;
   for Nyr_Channel use record
      Sender at 0 range 0 .. 31;
      Seen   at 4 range 0 .. 31;
      Last   at 8 range 0 .. 31;
      Held   at 12 range 0 .. 31;
   end record;
   for Nyr_Channel'Size use 128;

   type Nyr_Channel_Array is array (0 .. Nyr_Channels - 1) of Nyr_Channel with Convention => C;

   type Nyr_Joiner is record
      Count   : Unsigned_32;
      Room    : Unsigned_32;
      Channel : Nyr_Channel_Array;
   end record with Convention => C;
   for Nyr_Joiner use record
      Count   at 0 range 0 .. 31;
      Room    at 4 range 0 .. 31;
      Channel at 8 range 0 .. 4095;
   end record;
   for Nyr_Joiner'Size use 4160;

   type Nyr_Taken is record
      Outcome : Unsigned_64;
      Missed  : Unsigned_64;
      Bytes   : Unsigned_64;
      Slice   : Unsigned_64;
      Start   : Unsigned_64;
   end record with Convention => C;
   for Nyr_Taken use record
      Outcome at 0 range 0 .. 63;
      Missed  at 8 range 0 .. 63;
      Bytes   at 16 range 0 .. 63;
      Slice   at 24 range 0 .. 63;
      Start   at 32 range 0 .. 63;
   end record;
   for Nyr_Taken'Size use 320;

   Nyr_Repeated : constant := 1;
   Nyr_Delivered : constant := 2;
   Nyr_Held : constant := 3;
   Nyr_Stray : constant := 4;
   Nyr_Too_Long : constant := 5;

   Nyr_Nowhere : constant := 0;
   Nyr_In_Datagram : constant := 1;
   Nyr_In_Rooms : constant := 2;

   function Nyr_Setup (Joiner : in out Nyr_Joiner; Ids : Nyr_Ids; Channels : Nyr_Size; Room : Unsigned_32;
                       Rooms_Length : Nyr_Size) return Unsigned_32
     with Import, Convention => C, External_Name => "nyr_setup";

   function Nyr_Take (Joiner : in out Nyr_Joiner; Rooms : in out Nyr_Bytes; Rooms_Length : Nyr_Size;
                      Datagram : Nyr_Bytes; Datagram_Length : Nyr_Size; Taken : in out Nyr_Taken) return Unsigned_32
     with Import, Convention => C, External_Name => "nyr_take";

   --  Cutting.

   function Nyr_Pieces (Message_Length : Nyr_Size; Piece_Size : Nyr_Size; Pieces : in out Nyr_Size) return Unsigned_32
     with Import, Convention => C, External_Name => "nyr_pieces";

   function Nyr_Cut (Message : Nyr_Bytes; Message_Length : Nyr_Size; Piece_Size : Nyr_Size; Sender : Nyr_Size;
                     First_Counter : Nyr_Size; Piece : Nyr_Size; Output : in out Nyr_Bytes; Output_Length : Nyr_Size;
                     Written : in out Nyr_Size) return Unsigned_32
     with Import, Convention => C, External_Name => "nyr_cut";

   --  Messages.

   type Nyr_Message is record
      Kind           : Unsigned_64;
      Value          : Unsigned_64;
      Sender         : Unsigned_64;
      Sequence       : Unsigned_64;
      Payload_Start  : Unsigned_64;
      Payload_Length : Unsigned_64;
   end record with Convention => C;
   for Nyr_Message use record
      Kind           at 0 range 0 .. 63;
      Value          at 8 range 0 .. 63;
      Sender         at 16 range 0 .. 63;
      Sequence       at 24 range 0 .. 63;
      Payload_Start  at 32 range 0 .. 63;
      Payload_Length at 40 range 0 .. 63;
   end record;
   for Nyr_Message'Size use 384;

   Nyr_Status : constant := 1;
   Nyr_Request : constant := 2;
   Nyr_Unknown_Operation : constant := 3;
   Nyr_Pull : constant := 4;
   Nyr_Service_Operation : constant := 5;
   Nyr_Services : constant := 6;
   Nyr_Services_Request : constant := 7;
   Nyr_Not_Available : constant := 8;
   Nyr_Composite_Change : constant := 9;
   Nyr_Composite_Ack : constant := 10;

   Nyr_All_Data : constant := 16#FFFF_FFFF#;
   Nyr_All_Services : constant := 16#FFFF_FFFF#;

   Nyr_Platform_Domain : constant := 0;
   Nyr_Operation_Domain : constant := 1;

   function Nyr_Read (Own : Unsigned_8; Message : Nyr_Bytes; Message_Length : Nyr_Size;
                      Answer : in out Nyr_Message) return Unsigned_32
     with Import, Convention => C, External_Name => "nyr_read";

   function Nyr_Write (Own : Unsigned_8; Domain : Unsigned_8; Id : Unsigned_32; Sequence : Unsigned_32;
                       Payload : Nyr_Bytes; Payload_Length : Nyr_Size; Output : in out Nyr_Bytes;
                       Output_Length : Nyr_Size; Written : in out Nyr_Size) return Unsigned_32
     with Import, Convention => C, External_Name => "nyr_write";

   --  Type tables.

   type Nyr_Sections is record
      Words : Nyr_Words (0 .. 1031);
   end record with Convention => C;
   for Nyr_Sections use record
      Words at 0 range 0 .. 66_047;
   end record;
   for Nyr_Sections'Size use 66_048;

   Nyr_Types_At : constant := 0;
   Nyr_Types_Count : constant := 1;
   Nyr_Members_At : constant := 2;
   Nyr_Members_Count : constant := 3;
   Nyr_Values_At : constant := 4;
   Nyr_Values_Count : constant := 5;
   Nyr_Operations_At : constant := 6;
   Nyr_Operations_Count : constant := 7;

   type Nyr_Operation is record
      Found    : Unsigned_64;
      Kind     : Unsigned_64;
      Carries  : Unsigned_64;
      Responds : Unsigned_64;
   end record with Convention => C;
   for Nyr_Operation use record
      Found    at 0 range 0 .. 63;
      Kind     at 8 range 0 .. 63;
      Carries  at 16 range 0 .. 63;
      Responds at 24 range 0 .. 63;
   end record;
   for Nyr_Operation'Size use 256;

   Nyr_Event : constant := 0;
   Nyr_Versioned_Data : constant := 1;
   Nyr_Request_Sent : constant := 2;
   Nyr_Request_Served : constant := 3;
   Nyr_No_Payload : constant := 16#FFFF#;

   function Nyr_Check_Table (Table : Nyr_Bytes; Table_Length : Nyr_Size;
                             Sections : in out Nyr_Sections) return Unsigned_32
     with Import, Convention => C, External_Name => "nyr_check_table";

   function Nyr_Find (Table : Nyr_Bytes; Table_Length : Nyr_Size; Sections : Nyr_Sections; Id : Unsigned_32;
                      Operation : in out Nyr_Operation) return Unsigned_32
     with Import, Convention => C, External_Name => "nyr_find";

   --  Payloads.

   type Nyr_Walked is record
      Given   : Unsigned_64;
      At_Item : Unsigned_64;
      Leaves  : Unsigned_64;
   end record with Convention => C;
   for Nyr_Walked use record
      Given   at 0 range 0 .. 63;
      At_Item at 8 range 0 .. 63;
      Leaves  at 16 range 0 .. 63;
   end record;
   for Nyr_Walked'Size use 192;

   function Nyr_Unpack (Table : Nyr_Bytes; Table_Length : Nyr_Size; Type_Number : Unsigned_16; Payload : Nyr_Bytes;
                        Payload_Length : Nyr_Size; Words : in out Nyr_Words; Words_Length : Nyr_Size;
                        Walked : in out Nyr_Walked) return Unsigned_32
     with Import, Convention => C, External_Name => "nyr_unpack";

   function Nyr_Unpack_In (Table : Nyr_Bytes; Table_Length : Nyr_Size; Sections : Nyr_Sections;
                           Type_Number : Unsigned_16; Payload : Nyr_Bytes; Payload_Length : Nyr_Size;
                           Words : in out Nyr_Words; Words_Length : Nyr_Size;
                           Walked : in out Nyr_Walked) return Unsigned_32
     with Import, Convention => C, External_Name => "nyr_unpack_in";

   function Nyr_Pack (Table : Nyr_Bytes; Table_Length : Nyr_Size; Type_Number : Unsigned_16; Words : Nyr_Words;
                      Words_Length : Nyr_Size; Output : in out Nyr_Bytes; Output_Length : Nyr_Size;
                      Walked : in out Nyr_Walked) return Unsigned_32
     with Import, Convention => C, External_Name => "nyr_pack";

   function Nyr_Pack_In (Table : Nyr_Bytes; Table_Length : Nyr_Size; Sections : Nyr_Sections;
                         Type_Number : Unsigned_16; Words : Nyr_Words; Words_Length : Nyr_Size;
                         Output : in out Nyr_Bytes; Output_Length : Nyr_Size;
                         Walked : in out Nyr_Walked) return Unsigned_32
     with Import, Convention => C, External_Name => "nyr_pack_in";

   --  Plans.

   function Nyr_Plans_Length (Table : Nyr_Bytes; Table_Length : Nyr_Size; Sections : Nyr_Sections;
                              Words : in out Nyr_Size) return Unsigned_32
     with Import, Convention => C, External_Name => "nyr_plans_length";

   function Nyr_Plans (Table : Nyr_Bytes; Table_Length : Nyr_Size; Sections : Nyr_Sections; Plans : in out Nyr_Words;
                       Plans_Length : Nyr_Size) return Unsigned_32
     with Import, Convention => C, External_Name => "nyr_plans";

   function Nyr_Unpack_By (Table : Nyr_Bytes; Table_Length : Nyr_Size; Sections : Nyr_Sections; Plans : Nyr_Words;
                           Plans_Length : Nyr_Size; Type_Number : Unsigned_16; Payload : Nyr_Bytes;
                           Payload_Length : Nyr_Size; Words : in out Nyr_Words; Words_Length : Nyr_Size;
                           Walked : in out Nyr_Walked) return Unsigned_32
     with Import, Convention => C, External_Name => "nyr_unpack_by";

   function Nyr_Pack_By (Table : Nyr_Bytes; Table_Length : Nyr_Size; Sections : Nyr_Sections; Plans : Nyr_Words;
                         Plans_Length : Nyr_Size; Type_Number : Unsigned_16; Words : Nyr_Words;
                         Words_Length : Nyr_Size; Output : in out Nyr_Bytes; Output_Length : Nyr_Size;
                         Walked : in out Nyr_Walked) return Unsigned_32
     with Import, Convention => C, External_Name => "nyr_pack_by";

   --  Platforms.

   type Nyr_Platform is record
      Up      : Nyr_Words (0 .. 3);
      Next    : Unsigned_64;
      Pending : Nyr_Words (0 .. 127);
   end record with Convention => C;
   for Nyr_Platform use record
      Up      at 0 range 0 .. 255;
      Next    at 32 range 0 .. 63;
      Pending at 40 range 0 .. 8191;
   end record;
   for Nyr_Platform'Size use 8512;

   type Nyr_Heard is record
      Kind           : Unsigned_64;
      Value          : Unsigned_64;
      Sender         : Unsigned_64;
      Sequence       : Unsigned_64;
      Number         : Unsigned_64;
      Payload_Start  : Unsigned_64;
      Payload_Length : Unsigned_64;
      Replies        : Unsigned_64;
   end record with Convention => C;
   for Nyr_Heard use record
      Kind           at 0 range 0 .. 63;
      Value          at 8 range 0 .. 63;
      Sender         at 16 range 0 .. 63;
      Sequence       at 24 range 0 .. 63;
      Number         at 32 range 0 .. 63;
      Payload_Start  at 40 range 0 .. 63;
      Payload_Length at 48 range 0 .. 63;
      Replies        at 56 range 0 .. 63;
   end record;
   for Nyr_Heard'Size use 512;

   Nyr_Heard_Status : constant := 1;
   Nyr_Heard_Request : constant := 2;
   Nyr_Heard_Unknown : constant := 3;
   Nyr_Heard_Pull_All : constant := 4;
   Nyr_Heard_Pull_One : constant := 5;
   Nyr_Heard_Pull_None : constant := 6;
   Nyr_Heard_Operation : constant := 7;
   Nyr_Heard_Not_In_Table : constant := 8;
   Nyr_Heard_Response : constant := 9;

   function Nyr_Start (Own : Unsigned_8; Platform : in out Nyr_Platform) return Unsigned_32
     with Import, Convention => C, External_Name => "nyr_start";

   function Nyr_Receive (Own : Unsigned_8; Platform : in out Nyr_Platform; Table : Nyr_Bytes; Table_Length : Nyr_Size;
                         Message : Nyr_Bytes; Message_Length : Nyr_Size; Output : in out Nyr_Bytes;
                         Output_Length : Nyr_Size; Heard : in out Nyr_Heard) return Unsigned_32
     with Import, Convention => C, External_Name => "nyr_receive";

   function Nyr_Receive_In (Own : Unsigned_8; Platform : in out Nyr_Platform; Table : Nyr_Bytes;
                            Table_Length : Nyr_Size; Sections : Nyr_Sections; Message : Nyr_Bytes;
                            Message_Length : Nyr_Size; Output : in out Nyr_Bytes; Output_Length : Nyr_Size;
                            Heard : in out Nyr_Heard) return Unsigned_32
     with Import, Convention => C, External_Name => "nyr_receive_in";

   function Nyr_Is_Up (Own : Unsigned_8; Platform : Nyr_Platform; Number : Unsigned_32) return Unsigned_32
     with Import, Convention => C, External_Name => "nyr_is_up";

   function Nyr_How_Many_Up (Own : Unsigned_8; Platform : Nyr_Platform) return Unsigned_32
     with Import, Convention => C, External_Name => "nyr_how_many_up";

   --  Requests.

   type Nyr_Sent is record
      Written  : Unsigned_64;
      Sequence : Unsigned_64;
   end record with Convention => C;
   for Nyr_Sent use record
      Written  at 0 range 0 .. 63;
      Sequence at 8 range 0 .. 63;
   end record;
   for Nyr_Sent'Size use 128;

   type Nyr_Awaited is record
      Found  : Unsigned_64;
      Id     : Unsigned_64;
      Target : Unsigned_64;
   end record with Convention => C;
   for Nyr_Awaited use record
      Found  at 0 range 0 .. 63;
      Id     at 8 range 0 .. 63;
      Target at 16 range 0 .. 63;
   end record;
   for Nyr_Awaited'Size use 192;

   function Nyr_Send (Own : Unsigned_8; Platform : in out Nyr_Platform; Table : Nyr_Bytes; Table_Length : Nyr_Size;
                      Sections : Nyr_Sections; Id : Unsigned_32; Target : Unsigned_32; Payload : Nyr_Bytes;
                      Payload_Length : Nyr_Size; Output : in out Nyr_Bytes; Output_Length : Nyr_Size;
                      Sent : in out Nyr_Sent) return Unsigned_32
     with Import, Convention => C, External_Name => "nyr_send";

   function Nyr_Cancel (Platform : in out Nyr_Platform; Sequence : Unsigned_32;
                        Cancelled : in out Nyr_Size) return Unsigned_32
     with Import, Convention => C, External_Name => "nyr_cancel";

   function Nyr_Pending (Platform : Nyr_Platform; Sequence : Unsigned_32;
                         Awaited : in out Nyr_Awaited) return Unsigned_32
     with Import, Convention => C, External_Name => "nyr_pending";

   --  Partners of Issue 3.

   type Nyr_Partners is record
      Words : Nyr_Words (0 .. 3);
   end record with Convention => C;
   for Nyr_Partners use record
      Words at 0 range 0 .. 255;
   end record;
   for Nyr_Partners'Size use 256;

   type Nyr_Any_Message is record
      Kind           : Unsigned_64;
      Value          : Unsigned_64;
      Sender         : Unsigned_64;
      Sequence       : Unsigned_64;
      Payload_Start  : Unsigned_64;
      Payload_Length : Unsigned_64;
      Issue          : Unsigned_64;
      Seconds        : Unsigned_64;
      Nanoseconds    : Unsigned_64;
      Composite      : Unsigned_64;
   end record with Convention => C;
   for Nyr_Any_Message use record
      Kind           at 0 range 0 .. 63;
      Value          at 8 range 0 .. 63;
      Sender         at 16 range 0 .. 63;
      Sequence       at 24 range 0 .. 63;
      Payload_Start  at 32 range 0 .. 63;
      Payload_Length at 40 range 0 .. 63;
      Issue          at 48 range 0 .. 63;
      Seconds        at 56 range 0 .. 63;
      Nanoseconds    at 64 range 0 .. 63;
      Composite      at 72 range 0 .. 63;
   end record;
   for Nyr_Any_Message'Size use 640;

   Nyr_Issue_3 : constant := 3;
   Nyr_Issue_6 : constant := 6;

   Nyr_Status_3 : constant := 1;
   Nyr_Request_3 : constant := 2;
   Nyr_Services_3 : constant := 3;
   Nyr_Services_Request_3 : constant := 4;
   Nyr_Unknown_Operation_3 : constant := 5;
   Nyr_Not_Available_3 : constant := 6;
   Nyr_Pull_3 : constant := 7;
   Nyr_Composite_Change_3 : constant := 8;
   Nyr_Composite_Ack_3 : constant := 9;

   function Nyr_Partners_Set (Partners : in out Nyr_Partners; Platform : Unsigned_32;
                              Issue : Unsigned_32) return Unsigned_32
     with Import, Convention => C, External_Name => "nyr_partners_set";

   function Nyr_Read_Mixed (Own : Unsigned_8; Partners : Nyr_Partners; Message : Nyr_Bytes; Message_Length : Nyr_Size;
                            Answer : in out Nyr_Any_Message) return Unsigned_32
     with Import, Convention => C, External_Name => "nyr_read_mixed";

   function Nyr_Write_3 (Own : Unsigned_8; Seconds : Unsigned_32; Nanoseconds : Unsigned_32; Domain : Unsigned_8;
                         Id : Unsigned_32; Sequence : Unsigned_32; Payload : Nyr_Bytes; Payload_Length : Nyr_Size;
                         Output : in out Nyr_Bytes; Output_Length : Nyr_Size;
                         Written : in out Nyr_Size) return Unsigned_32
     with Import, Convention => C, External_Name => "nyr_write_3";

   type Nyr_Stamp is record
      Seconds     : Unsigned_32;
      Nanoseconds : Unsigned_32;
      Composite   : Unsigned_32;
   end record with Convention => C;
   for Nyr_Stamp use record
      Seconds     at 0 range 0 .. 31;
      Nanoseconds at 4 range 0 .. 31;
      Composite   at 8 range 0 .. 31;
   end record;
   for Nyr_Stamp'Size use 96;

   type Nyr_Any_Heard is record
      Kind           : Unsigned_64;
      Value          : Unsigned_64;
      Sender         : Unsigned_64;
      Sequence       : Unsigned_64;
      Number         : Unsigned_64;
      Payload_Start  : Unsigned_64;
      Payload_Length : Unsigned_64;
      Replies        : Unsigned_64;
      Issue          : Unsigned_64;
      Seconds        : Unsigned_64;
      Nanoseconds    : Unsigned_64;
      Composite      : Unsigned_64;
   end record with Convention => C;
   for Nyr_Any_Heard use record
      Kind           at 0 range 0 .. 63;
      Value          at 8 range 0 .. 63;
      Sender         at 16 range 0 .. 63;
      Sequence       at 24 range 0 .. 63;
      Number         at 32 range 0 .. 63;
      Payload_Start  at 40 range 0 .. 63;
      Payload_Length at 48 range 0 .. 63;
      Replies        at 56 range 0 .. 63;
      Issue          at 64 range 0 .. 63;
      Seconds        at 72 range 0 .. 63;
      Nanoseconds    at 80 range 0 .. 63;
      Composite      at 88 range 0 .. 63;
   end record;
   for Nyr_Any_Heard'Size use 768;

   Nyr_Heard_Services : constant := 10;
   Nyr_Heard_Services_Request : constant := 11;
   Nyr_Heard_Not_Available : constant := 12;
   Nyr_Heard_Composite_Change : constant := 13;
   Nyr_Heard_Composite_Ack : constant := 14;

   Nyr_Unheard : constant := 0;
   Nyr_Unavailable : constant := 1;
   Nyr_Available : constant := 2;

   function Nyr_Service_Word (Id : Unsigned_32; State : Unsigned_32) return Unsigned_64 is
     (Shift_Left (Unsigned_64 (State), 32) or Unsigned_64 (Id));

   function Nyr_Receive_Mixed (Own : Unsigned_8; Stamp : Nyr_Stamp; Partners : Nyr_Partners; Ours : Nyr_Words;
                               Ours_Words : Nyr_Size; Platform : in out Nyr_Platform; Services : in out Nyr_Words;
                               Services_Words : Nyr_Size; Table : Nyr_Bytes; Table_Length : Nyr_Size;
                               Message : Nyr_Bytes; Message_Length : Nyr_Size; Output : in out Nyr_Bytes;
                               Output_Length : Nyr_Size; Heard : in out Nyr_Any_Heard) return Unsigned_32
     with Import, Convention => C, External_Name => "nyr_receive_mixed";

   function Nyr_Receive_Mixed_In (Own : Unsigned_8; Stamp : Nyr_Stamp; Partners : Nyr_Partners; Ours : Nyr_Words;
                                  Ours_Words : Nyr_Size; Platform : in out Nyr_Platform; Services : in out Nyr_Words;
                                  Services_Words : Nyr_Size; Table : Nyr_Bytes; Table_Length : Nyr_Size;
                                  Sections : Nyr_Sections; Message : Nyr_Bytes; Message_Length : Nyr_Size;
                                  Output : in out Nyr_Bytes; Output_Length : Nyr_Size;
                                  Heard : in out Nyr_Any_Heard) return Unsigned_32
     with Import, Convention => C, External_Name => "nyr_receive_mixed_in";

   function Nyr_Send_Mixed (Own : Unsigned_8; Stamp : Nyr_Stamp; Partners : Nyr_Partners;
                            Platform : in out Nyr_Platform; Table : Nyr_Bytes; Table_Length : Nyr_Size;
                            Sections : Nyr_Sections; Id : Unsigned_32; Target : Unsigned_32; Payload : Nyr_Bytes;
                            Payload_Length : Nyr_Size; Output : in out Nyr_Bytes; Output_Length : Nyr_Size;
                            Sent : in out Nyr_Sent) return Unsigned_32
     with Import, Convention => C, External_Name => "nyr_send_mixed";

   function Nyr_Service (Partners : Nyr_Partners; Services : Nyr_Words; Services_Words : Nyr_Size;
                         Platform : Unsigned_32; Id : Unsigned_32) return Unsigned_32
     with Import, Convention => C, External_Name => "nyr_service";

end Nyrkovash;
