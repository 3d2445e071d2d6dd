"""`purge`: the game folder without mods comes back."""

import os

from harness import MANIFEST, manifest_text, needs, same

BACKUP = "game/x.txt.vortex_backup"


# Two mods with a file of one name, which the game has too; the second mod's is deployed.
def _covering(world):
    original = world.covered().inode("game/x.txt")
    world.run("deploy").prints("deployed 1, set 1, saved 1").ends(0)
    return original


# A file in folders that the deployment makes.
def _nested(world):
    world.folder("keep").file("stage/a/d/e/x.txt", "abc")
    world.run("deploy").prints("deployed 1, set 1, saved 0").ends(0)


# What goes, and what comes back.


@needs("purge")
def without_a_manifest_nothing_is_purged(world):
    world.two_mods().file("game/q", "game").folder("game/d")
    world.look("purge").prints("purged 0, set 0, saved 0").ends(0)


@needs("deploy", "purge")
def an_empty_deployment_is_purged(world):
    world.roots()
    world.run("deploy").prints("deployed 0, set 0, saved 0").ends(0)
    world.run("purge").prints("purged 0, set 0, saved 0").ends(0)
    world.holds("game")
    world.holds("keep")


@needs("deploy", "purge")
def the_links_go_and_the_staged_files_stay(world):
    world.two_mods().file("game/q", "game")
    before = world.everything()
    world.run("deploy").ends(0)
    world.run("purge").prints("purged 1, set 1, saved 0").ends(0)
    world.unchanged(before)
    world.look("status").prints("files 0", "folders 0", "intent none").ends(0)


@needs("deploy", "purge")
def the_original_itself_comes_back(world):
    before = world.covered().everything()
    world.run("deploy").ends(0)
    world.run("purge").prints("purged 1, set 1, saved 0").ends(0)
    world.unchanged(before)


@needs("deploy", "purge")
def a_second_purge_does_nothing(world):
    _covering(world)
    world.run("purge").ends(0)
    world.look("purge").prints("purged 0, set 0, saved 0").ends(0)


@needs("deploy", "purge")
def a_deployment_after_a_purge_is_the_same_again(world):
    _covering(world)
    world.run("purge").ends(0)
    world.run("deploy").prints("deployed 1, set 1, saved 1").ends(0)
    world.one_file("stage/b/x.txt", "game/x.txt")
    world.text(BACKUP, "game")
    world.text(MANIFEST, manifest_text([world.row("x.txt", "b", shadowed=True)]))


@needs("purge")
def a_deployment_of_version_1_is_purged(world):
    row = dict(world.deployed().row("x.txt", "b"))
    text = manifest_text([row]).replace(',"source":"x.txt"', "").replace("2}", "1}")
    world.file(MANIFEST, text)
    world.run("purge").prints("purged 1, set 1, saved 0").ends(0)
    world.holds("game")


@needs("deploy", "purge")
def a_mod_with_a_type_is_purged(world):
    world.roots().file("stage/a/x.txt", "abc").profile(
        "version = 2",
        'types = [{id = "dll", base = "bin"}]',
        'mods = [{id = "a", type = "dll"}]',
    )
    before = world.everything()
    world.run("deploy").ends(0)
    world.run("purge").prints("purged 1, set 1, saved 0").ends(0)
    world.unchanged(before)


# A purge asks neither the profile nor the mods.
@needs("deploy", "purge")
def a_purge_goes_by_the_manifest_alone(world):
    original = _covering(world)
    world.profile("version = 3").remove("stage/a").symlink("stage/b/odd", "nowhere")
    world.run("purge").prints("purged 1, set 1, saved 0").ends(0)
    same("the original", world.inode("game/x.txt"), original)


# Folders.


@needs("deploy", "purge")
def folders_that_a_deployment_made_go(world):
    _nested(world)
    world.run("purge").prints("purged 1, set 1, saved 0").ends(0)
    world.holds("game")


@needs("deploy", "purge")
def folders_of_the_game_stay(world):
    world.folder("keep").folder("game/d").file("stage/a/d/e/x.txt", "abc")
    world.run("deploy").ends(0)
    world.text(MANIFEST, manifest_text([world.row("d/e/x.txt", "a")], ["d/e"]))
    world.run("purge").prints("purged 1, set 1, saved 0").ends(0)
    world.holds("game", "d")
    world.holds("game/d")


@needs("deploy", "purge")
def files_of_others_keep_their_folders(world):
    _nested(world)
    mine = world.file("game/d/y", "mine").inode("game/d/y")
    world.run("purge").prints("purged 1, set 1, saved 0").ends(0)
    world.holds("game", "d")
    world.holds("game/d", "y")
    same("the file", world.inode("game/d/y"), mine)


@needs("deploy", "purge")
def an_empty_folder_of_others_keeps_the_folders_above(world):
    _nested(world)
    world.folder("game/d/mine")
    world.run("purge").prints("purged 1, set 1, saved 0").ends(0)
    world.holds("game/d", "mine")


@needs("deploy", "purge")
def a_folder_that_others_removed_is_no_matter(world):
    _nested(world)
    world.remove("game/d")
    world.run("purge").prints("purged 1, set 0, saved 0").ends(0)
    world.holds("game")


# Changes by others: nothing that they made is lost.


@needs("deploy", "purge")
def a_replaced_file_is_kept_aside(world):
    original = _covering(world)
    new = world.replace("game/x.txt", "new")
    world.run("purge").prints("purged 1, set 1, saved 1").ends(0)
    same("the new file", world.inode("keep/aside/1/game/x.txt"), new)
    same("the original", world.inode("game/x.txt"), original)
    world.holds("game", "x.txt")
    world.holds("keep", "aside")


@needs("deploy", "purge")
def an_equal_copy_is_kept_aside_too(world):
    world.two_mods().run("deploy").ends(0)
    copy = world.replace("game/x.txt", "abc")
    world.run("purge").prints("purged 1, set 1, saved 1").ends(0)
    same("the copy", world.inode("keep/aside/1/game/x.txt"), copy)
    world.holds("game")


@needs("deploy", "purge")
def a_file_whose_staged_name_is_gone_is_kept_aside(world):
    original = _covering(world)
    found = world.inode("game/x.txt")
    world.remove("stage/b/x.txt")
    world.run("purge").prints("purged 1, set 1, saved 1").ends(0)
    same("the file", world.inode("keep/aside/1/game/x.txt"), found)
    same("the original", world.inode("game/x.txt"), original)


@needs("deploy", "purge")
def a_file_whose_staged_name_is_a_folder_is_kept_aside(world):
    world.two_mods().run("deploy").ends(0)
    found = world.inode("game/x.txt")
    world.remove("stage/b/x.txt").folder("stage/b/x.txt")
    world.run("purge").prints("purged 1, set 1, saved 1").ends(0)
    same("the file", world.inode("keep/aside/1/game/x.txt"), found)
    world.holds("game")


@needs("deploy", "purge")
def an_edit_in_place_stays_in_the_stage(world):
    world.two_mods().run("deploy").ends(0)
    staged = world.edit("game/x.txt", "edited").inode("stage/b/x.txt")
    world.run("purge").prints("purged 1, set 1, saved 0").ends(0)
    same("the staged file", world.inode("stage/b/x.txt"), staged)
    world.text("stage/b/x.txt", "edited")
    world.holds("game")
    world.holds("keep")


@needs("deploy", "purge")
def a_removed_link_is_no_matter(world):
    world.two_mods().run("deploy").ends(0)
    world.remove("game/x.txt")
    world.run("purge").prints("purged 1, set 0, saved 0").ends(0)
    world.holds("game")
    world.text("stage/b/x.txt", "abc")


@needs("deploy", "purge")
def the_original_comes_back_where_the_link_was_removed(world):
    original = _covering(world)
    world.remove("game/x.txt")
    world.run("purge").prints("purged 1, set 1, saved 0").ends(0)
    same("the original", world.inode("game/x.txt"), original)
    world.holds("game", "x.txt")


@needs("deploy", "purge")
def without_its_original_a_link_goes_all_the_same(world):
    _covering(world)
    world.remove(BACKUP)
    world.run("purge").prints("purged 1, set 1, saved 0").ends(0)
    world.holds("game")


@needs("deploy", "purge")
def neither_link_nor_original_is_no_matter(world):
    _covering(world)
    world.remove("game/x.txt").remove(BACKUP)
    world.run("purge").prints("purged 1, set 0, saved 0").ends(0)
    world.holds("game")


@needs("deploy", "purge")
def what_one_purge_keeps_aside_has_one_number(world):
    world.roots().file("stage/a/d/x", "A").file("stage/a/y", "A").file("stage/a/z", "A")
    world.run("deploy").prints("deployed 3, set 3, saved 0").ends(0)
    one, other = world.replace("game/d/x", "one"), world.replace("game/y", "other")
    world.run("purge").prints("purged 3, set 3, saved 2").ends(0)
    same("the one", world.inode("keep/aside/1/game/d/x"), one)
    same("the other", world.inode("keep/aside/1/game/y"), other)
    world.holds("game")
    world.holds("keep/aside", "1")


@needs("deploy", "purge")
def no_aside_number_is_used_again(world):
    _covering(world)
    world.replace("game/x.txt", "new")
    world.file("keep/aside/12/game/x.txt", "old").folder("keep/aside/1").folder("keep/aside/007")
    world.file("keep/aside/99x", "no number").folder("keep/aside/4294967296")
    world.run("purge").prints("purged 1, set 1, saved 1").ends(0)
    world.text("keep/aside/12/game/x.txt", "old")
    world.text("keep/aside/13/game/x.txt", "new")


# The folder's place is a link, so nothing stands below it: neither is unlinked.
@needs("deploy", "purge")
def nothing_is_taken_through_a_linked_folder(world):
    world.file("stage/a/d/x.txt", "abc").folder("keep")
    world.run("deploy").ends(0)
    os.rename(world.path("game/d"), world.path("elsewhere"))
    world.symlink("game/d", "../elsewhere")
    world.run("purge").prints("purged 1, set 0, saved 0").ends(0)
    world.text("elsewhere/x.txt", "abc")
    same("the link", os.readlink(world.path("game/d")), "../elsewhere")
    world.absent(MANIFEST)


# Refusals: the first is told, and nothing changes.


@needs("deploy", "purge")
def what_stands_at_a_row_is_in_the_way_of_a_purge(world):
    _covering(world)
    world.remove("game/x.txt").symlink("game/x.txt", "../stage/b/x.txt")
    world.is_refused("purge", "33\tBlocked\tgame/x.txt")
    world.remove("game/x.txt").folder("game/x.txt")
    world.is_refused("purge", "33\tBlocked\tgame/x.txt")


@needs("deploy", "purge")
def what_stands_at_an_original_is_in_the_way_of_a_purge(world):
    _covering(world)
    world.remove(BACKUP).folder(BACKUP)
    world.is_refused("purge", f"33\tBlocked\t{BACKUP}")
    world.remove(BACKUP).symlink(BACKUP, "x.txt")
    world.is_refused("purge", f"33\tBlocked\t{BACKUP}")


# Only a shadowed row has an original.
@needs("deploy", "purge")
def a_folder_named_as_an_original_is_no_matter_where_there_was_none(world):
    world.two_mods().run("deploy").ends(0)
    world.folder(BACKUP)
    world.run("purge").prints("purged 1, set 1, saved 0").ends(0)
    world.holds("game", "x.txt.vortex_backup")


@needs("deploy", "purge")
def the_first_row_in_the_way_of_a_purge_is_told(world):
    world.roots()
    for name in "abc":
        world.file(f"stage/m/{name}", name).file(f"game/{name}", "game")
    world.run("deploy").prints("deployed 3, set 3, saved 3").ends(0)
    world.remove("game/c").folder("game/c")
    world.remove("game/b.vortex_backup").folder("game/b.vortex_backup")
    world.is_refused("purge", "33\tBlocked\tgame/b.vortex_backup")
    world.remove("game/b").folder("game/b")
    world.is_refused("purge", "33\tBlocked\tgame/b")


@needs("deploy", "purge")
def no_number_is_left_to_keep_a_file_aside(world):
    _covering(world)
    world.replace("game/x.txt", "new")
    world.folder("keep/aside/4294967295")
    world.is_refused("purge", "35\tAsideFull")
    world.remove("keep/aside").file("keep/aside", "mine")
    world.is_refused("purge", "33\tBlocked\tkeep/aside")


@needs("deploy", "purge")
def kept_files_are_looked_at_only_where_one_is_kept(world):
    original = _covering(world)
    world.folder("keep/aside/4294967295")
    world.run("purge").prints("purged 1, set 1, saved 0").ends(0)
    same("the original", world.inode("game/x.txt"), original)


@needs("purge")
def a_bad_manifest_is_not_purged(world):
    good = world.deployed().row("x.txt", "b")
    for text, refusal in [
        ("{", "25\tManifestNotJson"),
        ("{}", "26\tManifestVersion"),
        ("[]", "27\tManifestShape\ttop"),
        (manifest_text([dict(good, path="../x")]), "28\tManifestBadPath\tfile 0"),
        (manifest_text([good, dict(good, path="a")]), "29\tManifestOrder\tfile 1"),
        (manifest_text([good, dict(good, path="x.txt/y")]), "30\tManifestNested\tfile 1"),
        (manifest_text([good, dict(good, path="y")]), "53\tManifestSource\tfile 1"),
    ]:
        world.file(MANIFEST, text)
        world.is_refused("purge", refusal)


@needs("purge")
def a_manifest_that_is_too_long_is_not_purged(world):
    world.deployed()
    os.truncate(world.path(MANIFEST), 134_217_729)
    run = world.run("purge").prints(f"refused\t11\tTooLong\t{MANIFEST}").ends(3)
    run.within(30)
    world.one_file("stage/b/x.txt", "game/x.txt")
    os.truncate(world.path(MANIFEST), 173)


@needs("purge")
def a_purge_asks_for_recovery_and_for_free_control_places(world):
    world.deployed().file("keep/intent.json", '{"clears":[')
    world.look("purge").prints("recover first").ends(4)
    world.remove("keep/intent.json").folder("keep/profile.tmp")
    world.is_refused("purge", "33\tBlocked\tkeep/profile.tmp")


@needs("purge")
def a_purge_takes_no_word(world):
    world.deployed()
    for words in [["now"], ["--all"], ["--help"], ["--", "x"]]:
        world.look("purge", *words).prints("usage").ends(2)
    world.run("purge", "--").prints("purged 1, set 1, saved 0").ends(0)


# What a purge leaves behind.


@needs("purge")
def a_purge_sweeps_the_temps(world):
    world.deployed().file("keep/intent.tmp", "i").file("keep/manifest.tmp", "m")
    world.file("keep/profile.tmp", "p").file("keep/other", "o")
    world.run("purge").prints("purged 1, set 1, saved 0").ends(0)
    world.holds("keep", "other")


@needs("purge")
def a_full_printer_comes_after_the_purge(world):
    world.deployed()
    world.run("purge", stdout="/dev/full").ends(7)
    world.holds("game")
    world.holds("keep")


@needs("deploy", "purge")
def a_purge_goes_through_roots_that_are_links(world):
    world.folder("disk/game").file("disk/mods/a/d/x.txt", "A").folder("keep")
    world.symlink("stage", "disk/mods").symlink("game", "disk/game")
    world.run("deploy").ends(0)
    world.run("purge").prints("purged 1, set 1, saved 0").ends(0)
    world.holds("disk/game")
    world.text("disk/mods/a/d/x.txt", "A")


@needs("deploy", "check", "purge")
def ten_thousand_files_are_deployed_and_purged(world):
    world.roots()
    for folder in range(100):
        world.many_files(f"stage/a/d{folder:02d}", 100)
    world.run("deploy").prints("deployed 10000, set 10000, saved 0").ends(0).within(90)
    for folder in range(100):
        place = f"a/d{folder:02d}/000099"
        world.one_file(f"stage/{place}", f"game/{place[2:]}")
    world.look("check").prints("changes 0").ends(0).within(90)
    world.run("purge").prints("purged 10000, set 10000, saved 0").ends(0).within(90)
    world.holds("game")
