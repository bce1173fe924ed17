! Bhexodana for Fortran: converts reels of blocked records as the cards of a deck ask.
!
! Link with libbhexodana.a, which `./bhexodana build` writes for x86-64 Linux. include/bhexodana.h lists the refusals, their places and columns.
!
! A deck may be given in three ways:
!   cards     an array of card images, character(len=80) or shorter; what is right of the text counts as comment
!   text      one character variable with new_line('a') after each card; trailing blanks are part of it, so give trim(text)
!   bytes     an array of integer(int8)
! A reel, and the output, are arrays of integer(int8). What is given in one call must not overlap. The library keeps nothing between calls.
!
! Every answer begins with refusal, place and column. Refusal 0: the call finished. Otherwise the other parts of the answer are 0, and the output or
! the table is as it was. The column is, for 3, 4 and 7, that of a byte of the card which the place names, from 1; for all other refusals it is 0.
module bhexodana
    use, intrinsic :: iso_c_binding, only: c_int8_t, c_int16_t, c_int64_t, c_size_t, c_ptr, c_loc
    use, intrinsic :: iso_fortran_env, only: int8, int64
    implicit none
    private

    public :: plan_deck, plan_into, run_deck, show_twins, judge_reel
    public :: bhx_field, bhx_planned, bhx_ran, bhx_twinned, bhx_judged

    ! The version of this interface. It rises when an answer or an entry gets another shape, and when one is added.
    integer, parameter, public :: bhexodana_version = 5

    ! What a field does: bhx_field%kind.
    integer, parameter, public :: bhx_copy = 0, bhx_pack = 1, bhx_unpack = 2

    ! The part of the input record that a field reads: bhx_field%part. Without keys it is always the data.
    integer, parameter, public :: bhx_data = 0, bhx_key = 1

    ! Why two records become alike: bhx_twinned%reason. No field reads the lost half byte; the last field that reads it has no place for it; a later
    ! field is written over it; or the data past A's n are not carried.
    integer, parameter, public :: bhx_never_read = 1, bhx_dropped = 2, bhx_covered = 3, bhx_tail = 4

    ! A plan has at most so many fields, a reel so many bytes, and twins so many.
    integer, parameter, public :: bhx_most_fields = 64, bhx_most_reel = 65536, bhx_most_twins = 8193

    ! A field of a plan: input bytes of its part of the record from position r on become output bytes of the output record from position t on.
    ! For a copy both sizes are the same. Positions count from 1, r in its part as on the card.
    type, bind(c) :: bhx_field
        integer(c_int8_t) :: kind
        integer(c_int8_t) :: part
        integer(c_int16_t) :: r
        integer(c_int16_t) :: input
        integer(c_int16_t) :: output
        integer(c_int16_t) :: t
    end type bhx_field

    ! What a plan answers. Where keeping is .false., lost is the lowest half byte that is lost, from 0, through the key first; or two times A's n for
    ! the data past A's n.
    type :: bhx_planned
        integer(int64) :: refusal = 0
        integer(int64) :: place = 0
        integer(int64) :: column = 0
        logical :: keeping = .false.
        integer(int64) :: lost = 0
        integer(int64) :: fields = 0
    end type bhx_planned

    ! What a run answers: how many bytes of the output are the reel that was written, and its records and blocks. In FS records are counted, and not
    ! their segments.
    type, bind(c) :: bhx_ran
        integer(c_int64_t) :: refusal = 0
        integer(c_int64_t) :: place = 0
        integer(c_int64_t) :: column = 0
        integer(c_int64_t) :: length = 0
        integer(c_int64_t) :: records = 0
        integer(c_int64_t) :: blocks = 0
    end type bhx_ran

    ! What twins answer: the reason, and how many bytes of the output both records have. The first has length / 2 of them.
    type, bind(c) :: bhx_twinned
        integer(c_int64_t) :: refusal = 0
        integer(c_int64_t) :: place = 0
        integer(c_int64_t) :: column = 0
        integer(c_int64_t) :: reason = 0
        integer(c_int64_t) :: length = 0
    end type bhx_twinned

    ! What is answered for a reel from elsewhere: whether theirs is a true conversion of ours, and where it is none the first record that disagrees or
    ! lacks a partner, from 1 in the output. Where the call is refused yes is .false. too: ask refusal first.
    type :: bhx_judged
        integer(int64) :: refusal = 0
        integer(int64) :: place = 0
        integer(int64) :: column = 0
        logical :: yes = .false.
        integer(int64) :: number = 0
    end type bhx_judged

    ! answer = plan_deck(deck): the plan of a deck.
    interface plan_deck
        module procedure plan_cards, plan_text, plan_bytes
    end interface plan_deck

    ! call plan_into(deck, table, answer): the plan of a deck, with its fields in the first entries of the table; the others stay.
    interface plan_into
        module procedure plan_cards_into, plan_text_into, plan_bytes_into
    end interface plan_into

    ! call run_deck(deck, reel, output, answer): the reel that comes out stands in output(1:answer%length); the other bytes stay.
    interface run_deck
        module procedure run_cards, run_text, run_bytes
    end interface run_deck

    ! call show_twins(deck, output, answer): two input records that the deck makes one stand in output(1:answer%length); the other bytes stay.
    ! A plan that keeps has none: refusal 16. With a key each record is key and data joined.
    interface show_twins
        module procedure twins_of_cards, twins_of_text, twins_of_bytes
    end interface show_twins

    ! answer = judge_reel(deck, ours, theirs): is theirs a true conversion of ours by the deck, which has TR or TRF? Blocks of theirs need not be full, and positions
    ! that nothing writes may have anything.
    interface judge_reel
        module procedure judge_by_cards, judge_by_text, judge_by_bytes
    end interface judge_reel

    ! A plan's answer as the library gives it.
    type, bind(c) :: raw_planned
        integer(c_int64_t) :: refusal
        integer(c_int64_t) :: place
        integer(c_int64_t) :: column
        integer(c_int64_t) :: keeping
        integer(c_int64_t) :: lost
        integer(c_int64_t) :: fields
    end type raw_planned

    ! A verdict as the library gives it.
    type, bind(c) :: raw_judged
        integer(c_int64_t) :: refusal
        integer(c_int64_t) :: place
        integer(c_int64_t) :: column
        integer(c_int64_t) :: yes
        integer(c_int64_t) :: number
    end type raw_judged

    interface
        function raw_plan(deck, deck_length) bind(c, name="bhx_plan") result(answer)
            import :: c_ptr, c_size_t, raw_planned
            type(c_ptr), value :: deck
            integer(c_size_t), value :: deck_length
            type(raw_planned) :: answer
        end function raw_plan

        function raw_plan_into(deck, deck_length, table, entries) bind(c, name="bhx_plan_into") result(answer)
            import :: c_ptr, c_size_t, raw_planned
            type(c_ptr), value :: deck, table
            integer(c_size_t), value :: deck_length, entries
            type(raw_planned) :: answer
        end function raw_plan_into

        function raw_run(deck, deck_length, reel, reel_length, output, room) bind(c, name="bhx_run") result(answer)
            import :: c_ptr, c_size_t, bhx_ran
            type(c_ptr), value :: deck, reel, output
            integer(c_size_t), value :: deck_length, reel_length, room
            type(bhx_ran) :: answer
        end function raw_run

        function raw_twins(deck, deck_length, output, room) bind(c, name="bhx_twins") result(answer)
            import :: c_ptr, c_size_t, bhx_twinned
            type(c_ptr), value :: deck, output
            integer(c_size_t), value :: deck_length, room
            type(bhx_twinned) :: answer
        end function raw_twins

        function raw_judge(deck, deck_length, ours, ours_length, theirs, theirs_length) bind(c, name="bhx_judge") result(answer)
            import :: c_ptr, c_size_t, raw_judged
            type(c_ptr), value :: deck, ours, theirs
            integer(c_size_t), value :: deck_length, ours_length, theirs_length
            type(raw_judged) :: answer
        end function raw_judge
    end interface

    ! Lent where an array is empty: the library takes no null pointer.
    integer(c_int8_t), target, save :: nothing(1) = 0
    type(bhx_field), target, save :: no_field(1) = bhx_field(0, 0, 0, 0, 0, 0)

contains

    function plan_cards(cards) result(answer)
        character(len=*), intent(in) :: cards(:)
        type(bhx_planned) :: answer
        answer = plan_bytes(bytes_of_cards(cards))
    end function plan_cards

    function plan_text(text) result(answer)
        character(len=*), intent(in) :: text
        type(bhx_planned) :: answer
        answer = plan_bytes(bytes_of(text))
    end function plan_text

    function plan_bytes(deck) result(answer)
        integer(int8), intent(in), target, contiguous :: deck(:)
        type(bhx_planned) :: answer
        answer = planned(raw_plan(address(deck), size(deck, kind=c_size_t)))
    end function plan_bytes

    subroutine plan_cards_into(cards, table, answer)
        character(len=*), intent(in) :: cards(:)
        type(bhx_field), intent(inout), target, contiguous :: table(:)
        type(bhx_planned), intent(out) :: answer
        call plan_bytes_into(bytes_of_cards(cards), table, answer)
    end subroutine plan_cards_into

    subroutine plan_text_into(text, table, answer)
        character(len=*), intent(in) :: text
        type(bhx_field), intent(inout), target, contiguous :: table(:)
        type(bhx_planned), intent(out) :: answer
        call plan_bytes_into(bytes_of(text), table, answer)
    end subroutine plan_text_into

    subroutine plan_bytes_into(deck, table, answer)
        integer(int8), intent(in), target, contiguous :: deck(:)
        type(bhx_field), intent(inout), target, contiguous :: table(:)
        type(bhx_planned), intent(out) :: answer
        type(c_ptr) :: entries
        entries = c_loc(no_field)
        if (size(table) > 0) entries = c_loc(table)
        answer = planned(raw_plan_into(address(deck), size(deck, kind=c_size_t), entries, size(table, kind=c_size_t)))
    end subroutine plan_bytes_into

    subroutine run_cards(cards, reel, output, answer)
        character(len=*), intent(in) :: cards(:)
        integer(int8), intent(in), target, contiguous :: reel(:)
        integer(int8), intent(inout), target, contiguous :: output(:)
        type(bhx_ran), intent(out) :: answer
        call run_bytes(bytes_of_cards(cards), reel, output, answer)
    end subroutine run_cards

    subroutine run_text(text, reel, output, answer)
        character(len=*), intent(in) :: text
        integer(int8), intent(in), target, contiguous :: reel(:)
        integer(int8), intent(inout), target, contiguous :: output(:)
        type(bhx_ran), intent(out) :: answer
        call run_bytes(bytes_of(text), reel, output, answer)
    end subroutine run_text

    subroutine run_bytes(deck, reel, output, answer)
        integer(int8), intent(in), target, contiguous :: deck(:), reel(:)
        integer(int8), intent(inout), target, contiguous :: output(:)
        type(bhx_ran), intent(out) :: answer
        answer = raw_run(address(deck), size(deck, kind=c_size_t), address(reel), size(reel, kind=c_size_t), &
            address(output), size(output, kind=c_size_t))
    end subroutine run_bytes

    subroutine twins_of_cards(cards, output, answer)
        character(len=*), intent(in) :: cards(:)
        integer(int8), intent(inout), target, contiguous :: output(:)
        type(bhx_twinned), intent(out) :: answer
        call twins_of_bytes(bytes_of_cards(cards), output, answer)
    end subroutine twins_of_cards

    subroutine twins_of_text(text, output, answer)
        character(len=*), intent(in) :: text
        integer(int8), intent(inout), target, contiguous :: output(:)
        type(bhx_twinned), intent(out) :: answer
        call twins_of_bytes(bytes_of(text), output, answer)
    end subroutine twins_of_text

    subroutine twins_of_bytes(deck, output, answer)
        integer(int8), intent(in), target, contiguous :: deck(:)
        integer(int8), intent(inout), target, contiguous :: output(:)
        type(bhx_twinned), intent(out) :: answer
        answer = raw_twins(address(deck), size(deck, kind=c_size_t), address(output), size(output, kind=c_size_t))
    end subroutine twins_of_bytes

    function judge_by_cards(cards, ours, theirs) result(answer)
        character(len=*), intent(in) :: cards(:)
        integer(int8), intent(in), target, contiguous :: ours(:), theirs(:)
        type(bhx_judged) :: answer
        answer = judge_by_bytes(bytes_of_cards(cards), ours, theirs)
    end function judge_by_cards

    function judge_by_text(text, ours, theirs) result(answer)
        character(len=*), intent(in) :: text
        integer(int8), intent(in), target, contiguous :: ours(:), theirs(:)
        type(bhx_judged) :: answer
        answer = judge_by_bytes(bytes_of(text), ours, theirs)
    end function judge_by_text

    function judge_by_bytes(deck, ours, theirs) result(answer)
        integer(int8), intent(in), target, contiguous :: deck(:), ours(:), theirs(:)
        type(bhx_judged) :: answer
        type(raw_judged) :: raw
        raw = raw_judge(address(deck), size(deck, kind=c_size_t), address(ours), size(ours, kind=c_size_t), &
            address(theirs), size(theirs, kind=c_size_t))
        answer = bhx_judged(raw%refusal, raw%place, raw%column, raw%yes == 1, raw%number)
    end function judge_by_bytes

    ! Where an array begins in memory.
    function address(bytes) result(place)
        integer(int8), intent(in), target, contiguous :: bytes(:)
        type(c_ptr) :: place
        place = c_loc(nothing)
        if (size(bytes) > 0) place = c_loc(bytes)
    end function address

    ! The answer with Fortran's types.
    function planned(raw) result(answer)
        type(raw_planned), intent(in) :: raw
        type(bhx_planned) :: answer
        answer = bhx_planned(raw%refusal, raw%place, raw%column, raw%keeping == 1, raw%lost, raw%fields)
    end function planned

    function bytes_of(text) result(bytes)
        character(len=*), intent(in) :: text
        integer(int8) :: bytes(len(text))
        bytes = transfer(text, bytes, len(text))
    end function bytes_of

    ! The cards one after the other, each with its line end.
    function bytes_of_cards(cards) result(bytes)
        character(len=*), intent(in) :: cards(:)
        integer(int8) :: bytes(size(cards) * (len(cards) + 1))
        integer :: i, at
        at = 0
        do i = 1, size(cards)
            bytes(at + 1:at + len(cards)) = bytes_of(cards(i))
            bytes(at + len(cards) + 1) = 10_int8
            at = at + len(cards) + 1
        end do
    end function bytes_of_cards

end module bhexodana
