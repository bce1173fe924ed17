! The Fortran module at its edges: a deck in each of its three ways, empty arrays, short tables, arrays with gaps, and that a refused call leaves
! the output and the table as they were. It prints what is wrong, and then a count.
program edges
    use, intrinsic :: iso_fortran_env, only: int8
    use bhexodana
    implicit none

    character(len=*), parameter :: cards(3) = [character(len=40) :: &
        "// UTT TRF,FF,A=(8,16),B=(7,7)", "// FS 1,4,1/5,(P,4,3),5", "// END"]
    character(len=*), parameter :: twice(2) = [character(len=40) :: "// UTT TC,FU,TC,A=(5),B=(5)", "// END"]
    integer(int8), parameter :: reel(28) = int([0, 0, 0, 1, 0, 0, 0, 12, 0, 0, 0, 28, &
        -63, -62, -61, -60, -15, -14, -13, -60, -63, -62, -61, -60, -7, -14, -13, -60], int8)
    integer(int8), parameter :: result(30) = int([0, 0, 0, 2, 0, 0, 0, 16, 0, 0, 0, 23, 0, 0, 0, 30, &
        -63, -62, -61, -60, 1, 35, 76, -63, -62, -61, -60, 9, 35, 76], int8)
    character(len=*), parameter :: filled(2) = [character(len=40) :: "// U TR,FF,A=(2,4),B=(2,4)", "// END"]
    integer(int8), parameter :: short(30) = int([0, 0, 0, 3, 0, 0, 0, 20, 0, 0, 0, 24, 0, 0, 0, 26, 0, 0, 0, 30, &
        1, 2, 3, 4, 5, 6, 7, 8, 9, 10], int8)
    character(len=*), parameter :: loses(3) = [character(len=40) :: &
        "// UTT TRF,FF,A=(8,16),B=(6,6)", "// FS 1,4,1/5,(P,4,2),5", "// END"]
    integer(int8), parameter :: both(16) = int([0, 0, 0, 0, -16, -16, -16, -96, 0, 0, 0, 0, -15, -16, -16, -96], int8)
    character(len=*), parameter :: keyed(3) = [character(len=40) :: &
        "// U TRF,FF,A=(K=2,D=4),B=(5,10)", "// FS (K,1),2,1/1,(P,4,3),3", "// END"]
    integer(int8), parameter :: none(0) = [integer(int8) ::]
    integer :: tested = 0, wrong = 0
    character(len=:), allocatable :: text

    text = lines(cards)
    call test_plans()
    call test_tables()
    call test_runs()
    call test_keys()
    call test_spanned()
    call test_twins()
    call test_judge()
    print "(i0, a, i0, a)", tested, " tests, ", wrong, " wrong"

contains

    subroutine check(holds, what)
        logical, intent(in) :: holds
        character(len=*), intent(in) :: what
        tested = tested + 1
        if (holds) return
        wrong = wrong + 1
        print "(2a)", "wrong: ", what
    end subroutine check

    logical function same_plan(p, refusal, place, column, keeping, lost, fields)
        type(bhx_planned), intent(in) :: p
        integer, intent(in) :: refusal, place, column, lost, fields
        logical, intent(in) :: keeping
        same_plan = p%refusal == refusal .and. p%place == place .and. p%column == column .and. (p%keeping .eqv. keeping) &
            .and. p%lost == lost .and. p%fields == fields
    end function same_plan

    logical function same_run(r, refusal, place, column, length, records, blocks)
        type(bhx_ran), intent(in) :: r
        integer, intent(in) :: refusal, place, column, length, records, blocks
        same_run = r%refusal == refusal .and. r%place == place .and. r%column == column .and. r%length == length &
            .and. r%records == records .and. r%blocks == blocks
    end function same_run

    subroutine test_plans()
        call check(same_plan(plan_deck(cards), 0, 0, 0, .true., 0, 2), "the plan of cards")
        call check(same_plan(plan_deck(text), 0, 0, 0, .true., 0, 2), "the plan of a text")
        call check(same_plan(plan_deck(transfer(text, none)), 0, 0, 0, .true., 0, 2), "the plan of bytes")
        call check(same_plan(plan_deck(cards(1:2)), 2, 3, 0, .false., 0, 0), "no END card")
        call check(same_plan(plan_deck(cards(3:1:-1)), 2, 1, 0, .false., 0, 0), "cards in the wrong order")
        call check(same_plan(plan_deck(""), 2, 1, 0, .false., 0, 0), "no text")
        call check(same_plan(plan_deck(none), 2, 1, 0, .false., 0, 0), "no bytes")
        call check(same_plan(plan_deck(cards(1:0)), 2, 1, 0, .false., 0, 0), "no cards")
        call check(same_plan(plan_deck(twice), 4, 1, 14, .false., 0, 0), "a parameter that stands twice")
    end subroutine test_plans

    subroutine test_tables()
        type(bhx_field) :: table(70), gaps(10)
        type(bhx_planned) :: p
        table = bhx_field(9, -1, 9, 9, 9, 9)
        call plan_into(cards, table(1:0), p)
        call check(same_plan(p, 15, 2, 0, .false., 0, 0) .and. all(table%kind == 9) .and. all(table%part == -1), "a table of 0")
        call plan_into(text, table(1:1), p)
        call check(same_plan(p, 15, 2, 0, .false., 0, 0) .and. all(table%kind == 9) .and. all(table%part == -1), "a table of 1")
        call plan_into(cards, table, p)
        call check(same_plan(p, 0, 0, 0, .true., 0, 2) .and. all(table(3:)%kind == 9), "a table of 70")
        call check(all(table(1:2)%part == bhx_data) .and. all(table(3:)%part == -1), "the parts of a table of 70")
        call check(table(1)%kind == bhx_copy .and. table(1)%r == 1 .and. table(1)%input == 4 .and. table(1)%t == 1, &
            "the first entry")
        call check(table(2)%kind == bhx_pack .and. table(2)%input == 4 .and. table(2)%output == 3 .and. table(2)%t == 5, &
            "the second entry")
        gaps = bhx_field(9, -1, 9, 9, 9, 9)
        call plan_into(transfer(text, none), gaps(1:9:4), p)
        call check(p%refusal == 0 .and. gaps(1)%kind == bhx_copy .and. gaps(5)%kind == bhx_pack, "a table with gaps")
        call check(all(gaps(2:4)%kind == 9) .and. all(gaps(6:)%kind == 9), "what is between the gaps")
    end subroutine test_tables

    subroutine test_runs()
        integer(int8) :: output(100), wide(200)
        type(bhx_ran) :: r
        output = 77
        call run_deck(cards, reel, output(1:29), r)
        call check(same_run(r, 15, 30, 0, 0, 0, 0) .and. all(output == 77), "a byte too little")
        call run_deck(cards, reel, output(1:0), r)
        call check(same_run(r, 15, 30, 0, 0, 0, 0), "no room")
        call run_deck(text, none, output, r)
        call check(same_run(r, 11, 0, 0, 0, 0, 0) .and. all(output == 77), "no byte of a reel")
        call run_deck("", none, output(1:0), r)
        call check(same_run(r, 2, 1, 0, 0, 0, 0), "nothing at all")
        call run_deck(twice, reel, output, r)
        call check(same_run(r, 4, 1, 14, 0, 0, 0) .and. all(output == 77), "a run with a parameter that stands twice")
        call run_deck(cards, reel, output, r)
        call check(same_run(r, 0, 0, 0, 30, 2, 2) .and. all(output(1:30) == result) .and. all(output(31:) == 77), "the paper's run")
        output = 77
        call run_deck(filled, short, output, r)
        call check(same_run(r, 0, 0, 0, 30, 5, 3) .and. output(16) == 28 .and. all(output(21:30) == short(21:)) &
            .and. all(output(31:) == 77), "a short block in the middle")
        wide = 55
        wide(1:56:2) = reel
        output = 77
        call run_deck(transfer(text, none), wide(1:56:2), output(1:60:2), r)
        call check(same_run(r, 0, 0, 0, 30, 2, 2) .and. all(output(1:60:2) == result) .and. all(output(2:60:2) == 77), &
            "arrays with gaps")
    end subroutine test_runs

    ! A key before the data: the part of each field, blocks of one record, and what is lost counted through the key.
    subroutine test_keys()
        character(len=*), parameter :: of_data(3) = [character(len=40) :: &
            "// U TF,FF,A=(K=2,D=2),B=(4,4)", "// FS (K,1),2,1/1,1,3", "// END"]
        character(len=*), parameter :: lossy(3) = [character(len=40) :: &
            "// U TF,FF,A=(K=2,D=1),B=(2,2)", "// FS (K,1),(P,2,1),1/1,1,2", "// END"]
        character(len=*), parameter :: too_long(3) = [character(len=40) :: &
            "// U TF,FF,A=(K=4095,D=2),B=(1,1)", "// FS 1,1,1", "// END"]
        character(len=*), parameter :: past(3) = [character(len=40) :: &
            "// U TF,FF,A=(K=2,D=4),B=(3,3)", "// FS (K,2),2,1", "// END"]
        integer(int8), parameter :: records(28) = int([0, 0, 0, 2, 0, 0, 0, 16, 0, 0, 0, 22, 0, 0, 0, 28, &
            -63, -62, -15, -14, -13, -60, -61, -60, -11, -10, -9, -40], int8)
        integer(int8), parameter :: packed(22) = int([0, 0, 0, 1, 0, 0, 0, 12, 0, 0, 0, 22, &
            -63, -62, 1, 35, 76, -61, -60, 5, 103, -115], int8)
        integer(int8) :: output(100)
        type(bhx_field) :: table(4)
        type(bhx_planned) :: p
        type(bhx_ran) :: r
        type(bhx_twinned) :: t
        table = bhx_field(9, -1, 9, 9, 9, 9)
        call plan_into(keyed, table(1:1), p)
        call check(same_plan(p, 15, 2, 0, .false., 0, 0) .and. all(table%part == -1), "a key, a table of 1")
        call plan_into(keyed, table, p)
        call check(same_plan(p, 0, 0, 0, .true., 0, 2) .and. all(table(3:)%part == -1), "a key, a table of 4")
        call check(table(1)%part == bhx_key .and. table(1)%kind == bhx_copy .and. table(1)%r == 1 .and. table(1)%input == 2 &
            .and. table(1)%output == 2 .and. table(1)%t == 1, "a field of the key")
        call check(table(2)%part == bhx_data .and. table(2)%kind == bhx_pack .and. table(2)%r == 1 .and. table(2)%input == 4 &
            .and. table(2)%output == 3 .and. table(2)%t == 3, "a field of the data")
        call check(same_plan(plan_deck(of_data), 0, 0, 0, .false., 6, 2), "a byte of the data is lost, counted through the key")
        call check(same_plan(plan_deck(too_long), 7, 1, 24, .false., 0, 0), "a total of 4,097")
        call check(same_plan(plan_deck(past), 9, 1, 0, .false., 0, 0), "a field past the key")
        output = 77
        call run_deck(keyed, records, output, r)
        call check(same_run(r, 0, 0, 0, 22, 2, 1) .and. all(output(1:22) == packed) .and. all(output(23:) == 77), &
            "a key before the data")
        output = 77
        call run_deck(too_long, records, output, r)
        call check(same_run(r, 7, 1, 24, 0, 0, 0) .and. all(output == 77), "a run with a total of 4,097")
        call show_twins(lossy, output(1:5), t)
        call check(same_twins(t, 15, 6, 0, 0, 0) .and. all(output == 77), "a byte too little for key and data")
        call show_twins(lossy, output, t)
        call check(same_twins(t, 0, 0, 0, bhx_dropped, 6) .and. all(output(1:6) == [-16, -96, 0, -15, -96, 0]) &
            .and. all(output(7:) == 77), "a digit of the key is dropped")
    end subroutine test_keys

    ! Records in segments: two of 6 and 3 bytes in three blocks of at most 12, and in two of at most 20, which are filled.
    subroutine test_spanned()
        character(len=*), parameter :: wider(2) = [character(len=40) :: "// U TR,FS,A=(12),B=(20)", "// END"]
        character(len=*), parameter :: under(2) = [character(len=40) :: "// U TR,FS,A=(8),B=(9)", "// END"]
        integer(int8), parameter :: records(53) = int([0, 0, 0, 3, 0, 0, 0, 20, 0, 0, 0, 32, 0, 0, 0, 42, 0, 0, 0, 53, &
            0, 12, 0, 0, 0, 8, 1, 0, 1, 2, 3, 4, 0, 10, 0, 0, 0, 6, 2, 0, 5, 6, 0, 11, 0, 0, 0, 7, 0, 0, 7, 8, 9], int8)
        integer(int8), parameter :: blocks(45) = int([0, 0, 0, 2, 0, 0, 0, 16, 0, 0, 0, 36, 0, 0, 0, 45, &
            0, 20, 0, 0, 0, 10, 0, 0, 1, 2, 3, 4, 5, 6, 0, 6, 1, 0, 7, 8, 0, 9, 0, 0, 0, 5, 2, 0, 9], int8)
        integer(int8) :: output(100), unfinished(53)
        type(bhx_ran) :: r
        type(bhx_twinned) :: t
        call check(same_plan(plan_deck(wider), 0, 0, 0, .true., 0, 0), "the plan of spanned records")
        call check(same_plan(plan_deck(under), 7, 1, 15, .false., 0, 0), "a block under 9 in FS")
        output = 77
        unfinished = records
        unfinished(49) = 1
        call run_deck(wider, unfinished, output, r)
        call check(same_run(r, 12, 3, 0, 0, 0, 0) .and. all(output == 77), "a record that is unfinished at the end")
        call show_twins(wider, output, t)
        call check(same_twins(t, 16, 0, 0, 0, 0) .and. all(output == 77), "twins of spanned records")
        call run_deck(wider, records, output, r)
        call check(same_run(r, 0, 0, 0, 45, 2, 2) .and. all(output(1:45) == blocks) .and. all(output(46:) == 77), &
            "segments, filled")
    end subroutine test_spanned

    logical function same_twins(t, refusal, place, column, reason, length)
        type(bhx_twinned), intent(in) :: t
        integer, intent(in) :: refusal, place, column, reason, length
        same_twins = t%refusal == refusal .and. t%place == place .and. t%column == column .and. t%reason == reason &
            .and. t%length == length
    end function same_twins

    ! Each reason, with the bytes of both records; a deck in each of its three ways.
    subroutine test_twins()
        character(len=*), parameter :: unread(3) = [character(len=40) :: &
            "// U TF,FF,A=(3,3),B=(2,2)", "// FS 1,1,1/3,1,2", "// END"]
        character(len=*), parameter :: covered(3) = [character(len=40) :: &
            "// U TF,FF,A=(2,2),B=(2,2)", "// FS 1,(P,2,2),1/1,1,2", "// END"]
        character(len=*), parameter :: tail(3) = [character(len=40) :: &
            "// U TF,FV,A=(4,13),B=(3,11)", "// FS 1,(P,4,3),1", "// END"]
        character(len=*), parameter :: longest(3) = [character(len=40) :: &
            "// U TF,FV,A=(4096,4105),B=(4096,4104)", "// FS 1,4096,1", "// END"]
        integer(int8) :: output(bhx_most_twins + 7)
        type(bhx_twinned) :: t
        output = 77
        call show_twins(cards, output(1:0), t)
        call check(same_twins(t, 16, 0, 0, 0, 0), "a plan that keeps, and no room")
        call show_twins(text, output, t)
        call check(same_twins(t, 16, 0, 0, 0, 0) .and. all(output == 77), "a plan that keeps")
        call show_twins(loses, output(1:0), t)
        call check(same_twins(t, 15, 16, 0, 0, 0), "twins and no room")
        call show_twins(loses, output(1:15), t)
        call check(same_twins(t, 15, 16, 0, 0, 0) .and. all(output == 77), "twins, a byte too little")
        call show_twins(none, output, t)
        call check(same_twins(t, 2, 1, 0, 0, 0) .and. all(output == 77), "twins of no bytes")
        call show_twins("", output(1:0), t)
        call check(same_twins(t, 2, 1, 0, 0, 0), "twins of nothing at all")
        call show_twins(twice, output, t)
        call check(same_twins(t, 4, 1, 14, 0, 0) .and. all(output == 77), "twins of a parameter that stands twice")
        call show_twins(unread, output, t)
        call check(same_twins(t, 0, 0, 0, bhx_never_read, 6) .and. all(output(1:6) == [0, 0, 0, 0, 16, 0]) &
            .and. all(output(7:) == 77), "never read")
        output = 77
        call show_twins(loses, output(1:16), t)
        call check(same_twins(t, 0, 0, 0, bhx_dropped, 16) .and. all(output(1:16) == both) .and. all(output(17:) == 77), "dropped")
        output = 77
        call show_twins(covered, output, t)
        call check(same_twins(t, 0, 0, 0, bhx_covered, 4) .and. all(output(1:4) == [-16, -96, -16, -80]) &
            .and. all(output(5:) == 77), "covered")
        output = 77
        call show_twins(tail, output, t)
        call check(same_twins(t, 0, 0, 0, bhx_tail, 9) .and. all(output(1:9) == [-16, -16, -16, -96, -16, -16, -16, -96, 0]) &
            .and. all(output(10:) == 77), "the tail")
        output = 77
        call show_twins(longest, output(1:bhx_most_twins - 1), t)
        call check(same_twins(t, 15, 8193, 0, 0, 0) .and. all(output == 77), "the longest twins, a byte too little")
        call show_twins(longest, output(1:bhx_most_twins), t)
        call check(same_twins(t, 0, 0, 0, bhx_tail, 8193) .and. all(output(1:8193) == 0) .and. all(output(8194:) == 77), &
            "the longest twins")
        output = 77
        call show_twins(transfer(lines(loses), none), output(1:64:2), t)
        call check(same_twins(t, 0, 0, 0, bhx_dropped, 16) .and. all(output(1:32:2) == both) .and. all(output(2:64:2) == 77) &
            .and. all(output(33:64:2) == 77), "twins into an array with gaps")
    end subroutine test_twins

    logical function same_verdict(j, refusal, place, column, yes, number)
        type(bhx_judged), intent(in) :: j
        integer, intent(in) :: refusal, place, column, number
        logical, intent(in) :: yes
        same_verdict = j%refusal == refusal .and. j%place == place .and. j%column == column .and. (j%yes .eqv. yes) &
            .and. j%number == number
    end function same_verdict

    ! Yes, which record is apart, and what is refused; a deck in each of its three ways.
    subroutine test_judge()
        character(len=*), parameter :: second(3) = [character(len=40) :: &
            "// UTT TRF,FF,A=(8,16),B=(7,7),R2", "// FS 1,4,1/5,(P,4,3),5", "// END"]
        character(len=*), parameter :: copied(2) = [character(len=40) :: "// U TC,FF,A=(8,16),B=(8,16)", "// END"]
        integer(int8), parameter :: empty(8) = int([0, 0, 0, 0, 0, 0, 0, 8], int8)
        integer(int8) :: theirs(30), wide(60)
        call check(same_verdict(judge_reel(cards, reel, result), 0, 0, 0, .true., 0), "what a run wrote")
        call check(same_verdict(judge_reel(text, reel, result), 0, 0, 0, .true., 0), "what a run wrote, by a text")
        call check(same_verdict(judge_reel(transfer(text, none), reel, result), 0, 0, 0, .true., 0), "what a run wrote, by bytes")
        call check(same_verdict(judge_reel(filled, short, short), 0, 0, 0, .true., 0), "blocks that are not full")
        call check(same_verdict(judge_reel(cards, empty, empty), 0, 0, 0, .true., 0), "both empty")
        call check(same_verdict(judge_reel(cards, reel, empty), 0, 0, 0, .false., 1), "theirs lacks all")
        theirs = result
        theirs(30) = 77
        call check(same_verdict(judge_reel(cards, reel, theirs), 0, 0, 0, .false., 2), "the sign of the last record")
        theirs = result
        theirs(21) = 9
        call check(same_verdict(judge_reel(second, reel, theirs), 0, 0, 0, .false., 2), "ours lacks a record, from record 2 on")
        wide = 55
        wide(1:60:2) = result
        call check(same_verdict(judge_reel(cards, reel, wide(1:60:2)), 0, 0, 0, .true., 0), "arrays with gaps, judged")
        call check(same_verdict(judge_reel(cards, reel, none), 17, 0, 0, .false., 0), "no byte of theirs")
        call check(same_verdict(judge_reel(cards, none, none), 11, 0, 0, .false., 0), "no byte of either")
        call check(same_verdict(judge_reel(none, none, none), 2, 1, 0, .false., 0), "nothing at all, judged")
        theirs = result
        theirs(16) = 29
        call check(same_verdict(judge_reel(cards, reel, theirs(1:29)), 18, 2, 0, .false., 0), "a block of no whole records")
        call check(same_verdict(judge_reel(copied, reel, reel), 8, 1, 0, .false., 0), "TC")
        call check(same_verdict(judge_reel(twice, reel, result), 4, 1, 14, .false., 0), "judged by a parameter that stands twice")
    end subroutine test_judge

    ! Cards as a text.
    function lines(from) result(joined)
        character(len=*), intent(in) :: from(3)
        character(len=:), allocatable :: joined
        joined = trim(from(1)) // new_line("a") // trim(from(2)) // new_line("a") // trim(from(3))
    end function lines

end program edges
