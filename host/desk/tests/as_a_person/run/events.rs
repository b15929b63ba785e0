//! Images, RAM and events: what a script gives the machine, and the reply that is printed of each event.

use super::succeeds;

#[test]
fn a_script_with_nothing_in_it_is_done() {
    for text in ["", "\n\n", "# only this\n", "   \t # and this", "\r\n# lines that end as some editors end them\r\n", "\u{feff}"] {
        succeeds(text, "");
    }
}

#[test]
fn images_and_ram_are_filled_from_an_address_on() {
    let text = "program 1FEH: 501FF0H 603FE5H   # JMP 1FFH, LDI @RP,1FFH\n\
                program 0: 000061H 0000F2H      # MOV @A,RO, MOV @B,MEM\n\
                rom 510: 1 1FFFH\n\
                ram 7EH: 1234H 0abcdh\n\
                set PC 510\n\
                set DP 7fh\n\
                run 4\n\
                reply 0 words 4\n\
                expect PC 2\n\
                expect A FFF8H\n\
                expect b ABCDH\n\
                expect ram 7EH 1234H\n\
                expect ram 127 ABCDH\n\
                expect ram 7DH 0\n";
    succeeds(text, "run 4: 0 done, 4 words\n");
}

#[test]
fn every_event_prints_its_reply() {
    let text = "program 0: 640027H 000019H 0000B6H     # LDI @SR,2001H with USF0 and P0; MOV @SOM,A; MOV @DR,SIM\n\
                set A 1000H\n\
                reset\nreply 0\n\
                in 2000H\nreply 0 words 0 value 0\nexpect SIACK 1\n\
                run 3\nreply 0 words 3\n\
                status\nreply 0 value A0H\n\
                out\nreply 0 value 1000H\nsent 1000H\nexpect SORQ 0\nexpect SOACK 1\n\
                read\nreply 0 value 0\n\
                read\nreply 0 value 20H\n\
                write 34H\nwrite 12H\nreply 0\nexpect DR 1234H\n\
                interrupt\nreply 0 words 0\nexpect PC 3\n\
                set SR 80H\ninterrupt\nreply 0 words 2\nexpect PC 100H\nexpect DEPTH 1\nexpect STACK0 3\n\
                run 1\nrun 0\nevent 0 2\nevent 4 5\n";
    let printed = "reset: 0 done\n\
                   in 2000H: 0 done\n\
                   run 3: 0 done, 3 words\n\
                   status: 0 done, value A0H\n\
                   out: 0 done, value 1000H\n\
                   read: 0 done, value 00H\n\
                   read: 0 done, value 20H\n\
                   write 34H: 0 done\n\
                   write 12H: 0 done\n\
                   interrupt: 0 done, 0 words (ignored: EI is 0)\n\
                   interrupt: 0 done, 2 words\n\
                   run 1: 0 done, 1 word\n\
                   run 0: 0 done, 0 words\n\
                   run 2: 0 done, 2 words\n\
                   in 0005H: 0 done\n";
    succeeds(text, printed);
}

#[test]
fn a_reply_belongs_to_the_event_before_it_whatever_stands_between() {
    succeeds("set SO 7\nset SORQ 1\nout\nset A 1\nexpect A 1\nram 0: 1\nsent 7\nreply 0 value 7\n", "out: 0 done, value 0007H\n");
}

#[test]
fn rate_and_sources_are_of_a_record_and_change_nothing() {
    succeeds("rate 48000\nrun 1\nsources booth \"the floor\"\nexpect PC 1\n", "run 1: 0 done, 1 word\n");
}
