! Two decks over the same reel. The first packs four zoned digits into three bytes and keeps every record apart. The second packs them into two:
! the first digit has no room, and two records that differ in it alone become twins. The plan says so before a reel is there.
program twins
    use, intrinsic :: iso_fortran_env, only: int8
    use bhexodana
    implicit none

    character(len=80), parameter :: keeps(3) = [character(len=80) :: &
        "// UTT TRF,FF,A=(8,16),B=(7,7)", &
        "// FS 1,4,1/5,(P,4,3),5", &
        "// END"]

    character(len=80), parameter :: loses(3) = [character(len=80) :: &
        "// UTT TRF,FF,A=(8,16),B=(6,6)", &
        "// FS 1,4,1/5,(P,4,2),5", &
        "// END"]

    ! One block of two records: C1C2C3C4 and a number of four zoned digits, 1234 and 9234, each with the sign C before its last digit.
    character(len=*), parameter :: reel_in_hex = &
        "00000001" // "0000000C" // "0000001C" // "C1C2C3C4F1F2F3C4" // "C1C2C3C4F9F2F3C4"

    if (.not. planned(keeps)) stop 1
    if (.not. run(keeps)) stop 1
    print "(a)", ""
    if (.not. planned(loses)) stop 1
    if (.not. shown(loses)) stop 1
    if (.not. run(loses)) stop 1

contains

    ! Says what the plan of a deck is; answers whether it is accepted.
    logical function planned(deck)
        character(len=*), intent(in) :: deck(:)
        character(len=6), parameter :: names(0:2) = [character(len=6) :: "copy", "pack", "unpack"]
        type(bhx_field) :: table(bhx_most_fields)
        type(bhx_planned) :: answer
        integer :: i
        call plan_into(deck, table, answer)
        planned = answer%refusal == 0
        if (.not. planned) then
            print "(a, i0, a, i0, a, i0)", "refused by ", answer%refusal, " at ", answer%place, ", column ", answer%column
            return
        end if
        do i = 1, int(answer%fields)
            print "(a, i0, 3a, 4(i0, a))", "field ", i, ": ", trim(names(table(i)%kind)), " ", &
                table(i)%input, " bytes at ", table(i)%r, " to ", table(i)%output, " bytes at ", table(i)%t, ""
        end do
        if (answer%keeping) then
            print "(a)", "keeps every record apart"
        else
            print "(a, i0, a)", "makes twins: half byte ", answer%lost, " is lost"
        end if
    end function planned

    ! Prints two records that a deck makes one. The first has half of the bytes.
    logical function shown(deck)
        character(len=*), intent(in) :: deck(:)
        integer(int8) :: both(bhx_most_twins)
        type(bhx_twinned) :: answer
        call show_twins(deck, both, answer)
        shown = answer%refusal == 0
        if (.not. shown) then
            print "(a, i0, a, i0, a, i0)", "refused by ", answer%refusal, " at ", answer%place, ", column ", answer%column
            return
        end if
        print "(a, *(z2.2))", "twin 1: ", both(:answer%length / 2)
        print "(a, *(z2.2))", "twin 2: ", both(answer%length / 2 + 1:answer%length)
    end function shown

    ! Runs a deck over the reel and prints the blocks that come out.
    logical function run(deck)
        character(len=*), intent(in) :: deck(:)
        integer(int8) :: output(bhx_most_reel)
        type(bhx_ran) :: answer
        integer :: i
        call run_deck(deck, bytes_in(reel_in_hex), output, answer)
        run = answer%refusal == 0
        if (.not. run) then
            print "(a, i0, a, i0, a, i0)", "refused by ", answer%refusal, " at ", answer%place, ", column ", answer%column
            return
        end if
        print "(3(i0, a))", answer%length, " bytes, ", answer%records, " records, ", answer%blocks, " blocks"
        do i = 1, int(answer%blocks)
            print "(a, i0, a, *(z2.2))", "block ", i, ": ", output(word(output, 4 * i + 1) + 1:word(output, 4 * i + 5))
        end do
    end function run

    ! The bytes that a text has in hex.
    function bytes_in(hex) result(bytes)
        character(len=*), intent(in) :: hex
        integer(int8) :: bytes(len(hex) / 2)
        integer :: i, value
        do i = 1, size(bytes)
            read (hex(2 * i - 1:2 * i), "(z2)") value
            bytes(i) = int(merge(value - 256, value, value > 127), int8)
        end do
    end function bytes_in

    ! The big-endian number in four bytes from a place on.
    integer function word(bytes, at)
        integer(int8), intent(in) :: bytes(:)
        integer, intent(in) :: at
        integer :: i
        word = 0
        do i = at, at + 3
            word = word * 256 + iand(int(bytes(i)), 255)
        end do
    end function word

end program twins
