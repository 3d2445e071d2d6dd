"""What the program makes of a disk that no tree in memory can be: links, odd entries, bad names."""

import os


def a_linked_folder_of_the_stage_is_no_mod(world):
    world.two_mods().file("elsewhere/y.txt", "no mod").symlink("stage/c", "../elsewhere")
    world.look("order").prints("a", "b").ends(0)
    world.look("winners").prints("x.txt\tb\torder").ends(0)


def a_linked_file_in_a_mod_is_refused(world):
    world.two_mods().symlink("stage/b/y.txt", "x.txt")
    world.look("winners").prints("refused\t20\tOddEntry\tstage/b\ty.txt").ends(3)


def a_linked_folder_in_a_mod_is_refused(world):
    world.two_mods().file("elsewhere/y.txt", "no mod").symlink("stage/a/y", "../../elsewhere")
    world.look("winners").prints("refused\t20\tOddEntry\tstage/a\ty").ends(3)


def a_link_deeper_in_a_mod_is_refused_with_its_folder(world):
    world.two_mods().symlink("stage/a/d/e/y", "nowhere")
    world.look("winners").prints("refused\t20\tOddEntry\tstage/a/d/e\ty").ends(3)


def a_pipe_in_a_mod_is_refused(world):
    world.two_mods().fifo("stage/b/pipe")
    world.look("winners").prints("refused\t20\tOddEntry\tstage/b\tpipe").ends(3)


def a_name_that_is_not_utf8_is_a_fault(world):
    world.two_mods()
    with open(os.fsencode(world.path("stage/b")) + b"/\xff.txt", "wb"):
        pass
    world.look("order").prints("a", "b").ends(0)
    world.look("winners").prints().ends(5)
    world.look("check").prints("changes 0").ends(0)


def a_mods_name_that_is_not_utf8_is_a_fault(world):
    world.two_mods()
    os.mkdir(os.fsencode(world.path("stage")) + b"/\xff")
    world.look("order").prints().ends(5)
    world.look("check").prints("changes 0").ends(0)


def a_game_that_is_a_file_is_a_fault(world):
    world.file("stage/a/x.txt", "A").file("game", "no folder").folder("keep")
    world.look("winners").prints().ends(5)


def a_game_that_links_nowhere_is_a_fault(world):
    world.file("stage/a/x.txt", "A").symlink("game", "nowhere").folder("keep")
    world.look("winners").prints().ends(5)
    world.absent("nowhere")


def roots_may_be_links_to_folders(world):
    world.folder("disk/my_game").file("disk/my_mods/a/x.txt", "A").folder("keep")
    world.symlink("stage", "disk/my_mods").symlink("game", "disk/my_game")
    world.look("winners").prints("x.txt\ta\torder").ends(0)
    world.look("status").prints("files 0", "folders 0", "intent none").ends(0)


def two_roots_that_are_one_folder_are_a_fault(world):
    world.file("stage/a/x.txt", "A").symlink("game", "stage").folder("keep")
    world.look("order").prints().ends(5)


def a_root_that_lies_in_another_is_a_fault(world):
    world.file("stage/a/x.txt", "A").folder("stage/a/d").symlink("keep", "stage/a/d").folder("game")
    world.look("order").prints().ends(5)


def a_root_above_the_others_is_a_fault(world):
    world.file("stage/a/x.txt", "A").symlink("game", ".").folder("keep")
    world.look("order").prints().ends(5)


def missing_roots_are_made_and_nothing_else(world):
    world.file("stage/a/x.txt", "A")
    world.run("winners").prints("x.txt\ta\torder").ends(0)
    world.holds(".", "game", "keep", "stage")
    world.holds("game")
    world.holds("keep")


def usage_makes_no_folder(world):
    world.run("order", "now").prints("usage").ends(2)
    world.holds(".")
