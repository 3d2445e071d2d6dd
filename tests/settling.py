"""`settle`: changes by others are settled, each class by its action."""

import hashlib

from harness import MANIFEST, manifest_text, needs, same

BACKUP = "game/x.txt.vortex_backup"
ASIDE = "keep/aside/1/game/x.txt"
STAGED_ASIDE = "keep/aside/1/stage/b/x.txt"
OPTIONS = ["--replaced", "--changed", "--deleted", "--source-deleted", "--gone"]
ACTIONS = ["aside", "import", "revert", "keep", "restore", "drop"]
ALLOWED = {
    ("--replaced", "aside"),
    ("--replaced", "import"),
    ("--replaced", "revert"),
    ("--changed", "keep"),
    ("--deleted", "restore"),
    ("--deleted", "drop"),
    ("--source-deleted", "restore"),
    ("--source-deleted", "drop"),
    ("--gone", "drop"),
}


# Two mods with a file of one name, which the game has too; the second mod's is deployed.
def _covering(world):
    original = world.covered().inode("game/x.txt")
    world.run("deploy").prints("deployed 1, set 1, saved 1").ends(0)
    return original


# Settles, and then nothing is left to settle.
def _settles(world, words, printed):
    world.run(*f"settle {words}".split()).prints(printed).ends(0)
    world.look("check").prints("changes 0").ends(0)
    world.look("settle").prints("settled 0, set 0, saved 0").ends(0)


def _has_row(world, shadowed=False, text="abc"):
    digest = hashlib.sha256(text.encode()).hexdigest()
    row = dict(digest=digest, mod="b", path="x.txt", shadowed=shadowed, source="x.txt")
    world.text(MANIFEST, manifest_text([row]))


# Nothing to settle.


@needs("settle")
def a_manifest_of_version_1_stays_where_nothing_is_settled(world):
    row = dict(world.deployed().row("x.txt", "b"))
    text = manifest_text([row]).replace(',"source":"x.txt"', "").replace("2}", "1}")
    world.file(MANIFEST, text)
    world.look("settle").prints("settled 0, set 0, saved 0").ends(0)


# A file that was replaced.


@needs("settle")
def a_replaced_file_is_kept_aside_and_the_link_comes_back(world):
    staged = world.deployed().inode("stage/b/x.txt")
    found = world.replace("game/x.txt", "new")
    _settles(world, "", "settled 1, set 1, saved 1")
    same("the file found", world.inode(ASIDE), found)
    same("the staged file", world.inode("stage/b/x.txt"), staged)
    world.one_file("stage/b/x.txt", "game/x.txt")
    _has_row(world)
    world.holds("keep", "aside")


@needs("settle")
def a_replaced_file_is_imported_and_the_staged_one_kept_aside(world):
    staged = world.deployed().inode("stage/b/x.txt")
    found = world.replace("game/x.txt", "new")
    _settles(world, "--replaced import", "settled 1, set 1, saved 1")
    same("the file found", world.inode("game/x.txt"), found)
    world.one_file("stage/b/x.txt", "game/x.txt")
    same("the old staged file", world.inode(STAGED_ASIDE), staged)
    _has_row(world, text="new")


@needs("settle")
def a_replaced_file_is_given_up(world):
    staged = world.deployed().inode("stage/b/x.txt")
    world.replace("game/x.txt", "new")
    _settles(world, "--replaced=revert", "settled 1, set 1, saved 1")
    same("the staged file", world.inode("stage/b/x.txt"), staged)
    world.one_file("stage/b/x.txt", "game/x.txt")
    _has_row(world)
    world.holds("keep/aside/1/game")


@needs("deploy", "settle")
def the_original_stays_under_a_replaced_file(world):
    original = _covering(world)
    for words in ["--replaced aside", "--replaced import", "--replaced revert"]:
        world.replace("game/x.txt", "abc")
        _settles(world, words, "settled 1, set 1, saved 1")
        same("the original", world.inode(BACKUP), original)
        world.one_file("stage/b/x.txt", "game/x.txt")
        _has_row(world, shadowed=True)


# The row has the digest of the file that both names have.
@needs("settle")
def a_staged_file_that_changed_too_is_taken_as_it_is(world):
    world.deployed().replace("game/x.txt", "new")
    world.edit("stage/b/x.txt", "edited")
    _settles(world, "", "settled 1, set 1, saved 1")
    world.text("game/x.txt", "edited")
    _has_row(world, text="edited")


@needs("settle")
def a_mod_with_a_type_is_imported_to_its_source(world):
    world.roots().file("stage/a/x.txt", "abc").link("game/bin/x.txt", "stage/a/x.txt")
    world.manifest(world.row("bin/x.txt", "a", source="x.txt"), folders=["bin"])
    staged = world.inode("stage/a/x.txt")
    found = world.replace("game/bin/x.txt", "new")
    _settles(world, "--replaced import", "settled 1, set 1, saved 1")
    same("the file found", world.inode("stage/a/x.txt"), found)
    same("the old staged file", world.inode("keep/aside/1/stage/a/x.txt"), staged)
    row = world.row("bin/x.txt", "a", source="x.txt")
    world.text(MANIFEST, manifest_text([row], ["bin"]))


@needs("settle")
def what_one_settlement_keeps_aside_has_one_number(world):
    world.roots()
    for name in ["d/x", "y"]:
        world.file(f"stage/b/{name}", "abc").link(f"game/{name}", f"stage/b/{name}")
    world.manifest(world.row("d/x", "b"), world.row("y", "b"), folders=["d"])
    world.file("keep/aside/12/game/y", "old").folder("keep/aside/007")
    one, other = world.replace("game/d/x", "one"), world.replace("game/y", "other")
    _settles(world, "", "settled 2, set 2, saved 2")
    same("the one", world.inode("keep/aside/13/game/d/x"), one)
    same("the other", world.inode("keep/aside/13/game/y"), other)
    world.text("keep/aside/12/game/y", "old")


# A file that was written to in place.


@needs("settle")
def an_edit_in_place_is_kept(world):
    number = world.deployed().edit("game/x.txt", "").inode("game/x.txt")
    world.look("check").prints("Changed\tx.txt", "changes 1").ends(1)
    _settles(world, "", "settled 1, set 0, saved 0")
    same("the file", world.inode("game/x.txt"), number)
    world.one_file("stage/b/x.txt", "game/x.txt")
    _has_row(world, text="")
    world.holds("keep")


# A link that was removed.


@needs("settle")
def a_removed_link_comes_back(world):
    world.deployed().remove("game/x.txt")
    _settles(world, "", "settled 1, set 1, saved 0")
    world.one_file("stage/b/x.txt", "game/x.txt")
    _has_row(world)
    world.holds("keep")


@needs("settle")
def a_removed_link_is_dropped(world):
    world.deployed().remove("game/x.txt")
    _settles(world, "--deleted drop", "settled 1, set 0, saved 0")
    world.holds("game", "vortex.deployment.json")
    world.text(MANIFEST, manifest_text([]))
    world.text("stage/b/x.txt", "abc")


@needs("deploy", "settle")
def the_original_comes_back_where_a_removed_link_is_dropped(world):
    original = _covering(world)
    world.remove("game/x.txt")
    _settles(world, "--deleted drop", "settled 1, set 1, saved 0")
    same("the original", world.inode("game/x.txt"), original)
    world.holds("game", "vortex.deployment.json", "x.txt")
    world.text(MANIFEST, manifest_text([]))


@needs("deploy", "settle")
def a_removed_link_is_dropped_without_its_original(world):
    _covering(world)
    world.remove("game/x.txt").remove(BACKUP)
    _settles(world, "--deleted drop", "settled 1, set 0, saved 0")
    world.holds("game", "vortex.deployment.json")


@needs("deploy", "settle")
def a_removed_link_comes_back_with_its_folders(world):
    world.folder("keep").file("stage/a/d/e/x.txt", "abc")
    world.run("deploy").ends(0)
    world.remove("game/d")
    _settles(world, "", "settled 1, set 1, saved 0")
    world.one_file("stage/a/d/e/x.txt", "game/d/e/x.txt")
    row = world.row("d/e/x.txt", "a")
    world.text(MANIFEST, manifest_text([row], ["d", "d/e"]))


@needs("deploy", "settle")
def folders_go_with_a_link_that_is_dropped(world):
    world.folder("keep").file("stage/a/d/e/x.txt", "abc").file("stage/a/d/y", "A")
    world.run("deploy").ends(0)
    world.remove("game/d/e/x.txt")
    _settles(world, "--deleted drop", "settled 1, set 0, saved 0")
    world.holds("game/d", "y")
    world.text(MANIFEST, manifest_text([world.row("d/y", "a")], ["d"]))


# A staged file that was removed.


@needs("settle")
def a_removed_source_comes_back(world):
    number = world.deployed().inode("game/x.txt")
    world.remove("stage/b/x.txt")
    _settles(world, "", "settled 1, set 1, saved 0")
    same("the file", world.inode("game/x.txt"), number)
    world.one_file("stage/b/x.txt", "game/x.txt")
    _has_row(world)
    world.holds("keep")


@needs("settle")
def a_removed_source_comes_back_with_its_folders(world):
    world.roots().file("stage/b/d/x", "abc").link("game/d/x", "stage/b/d/x")
    world.manifest(world.row("d/x", "b")).remove("stage/b")
    _settles(world, "", "settled 1, set 1, saved 0")
    world.one_file("stage/b/d/x", "game/d/x")
    world.text(MANIFEST, manifest_text([world.row("d/x", "b")]))


@needs("settle")
def the_link_of_a_removed_source_is_kept_aside(world):
    number = world.deployed().inode("game/x.txt")
    world.remove("stage/b/x.txt")
    _settles(world, "--source-deleted drop", "settled 1, set 1, saved 1")
    same("the file", world.inode(ASIDE), number)
    world.holds("game", "vortex.deployment.json")
    world.text(MANIFEST, manifest_text([]))


@needs("deploy", "settle")
def the_original_comes_back_where_a_removed_source_is_dropped(world):
    original = _covering(world)
    number = world.inode("game/x.txt")
    world.remove("stage/b/x.txt")
    _settles(world, "--source-deleted drop", "settled 1, set 1, saved 1")
    same("the file", world.inode(ASIDE), number)
    same("the original", world.inode("game/x.txt"), original)
    world.holds("game", "vortex.deployment.json", "x.txt")


# Both removed.


@needs("settle")
def what_is_gone_is_dropped(world):
    world.deployed().remove("stage/b/x.txt").remove("game/x.txt")
    _settles(world, "", "settled 1, set 0, saved 0")
    world.text(MANIFEST, manifest_text([]))
    world.holds("game", "vortex.deployment.json")


@needs("deploy", "settle")
def the_original_comes_back_for_what_is_gone(world):
    original = _covering(world)
    world.remove("stage/b/x.txt").remove("game/x.txt")
    _settles(world, "--gone drop", "settled 1, set 1, saved 0")
    same("the original", world.inode("game/x.txt"), original)
    world.holds("game", "vortex.deployment.json", "x.txt")


# All at once.


# A row of each class, and a clean one.
def _of_each_class(world):
    world.roots()
    names = ["changed", "clean", "deleted", "gone", "replaced", "sourceless"]
    for name in names:
        world.file(f"stage/b/{name}", "abc").link(f"game/{name}", f"stage/b/{name}")
    world.manifest(*[world.row(name, "b") for name in names])
    world.edit("game/changed", "edited").remove("game/deleted")
    world.remove("game/gone").remove("stage/b/gone").remove("stage/b/sourceless")
    return world.replace("game/replaced", "new")


@needs("settle")
def each_class_has_its_action_where_none_is_said(world):
    found = _of_each_class(world)
    _settles(world, "", "settled 5, set 3, saved 1")
    same("the file found", world.inode("keep/aside/1/game/replaced"), found)
    rows = ["changed", "clean", "deleted", "replaced", "sourceless"]
    for name in rows:
        world.one_file(f"stage/b/{name}", f"game/{name}")
    world.text(MANIFEST, manifest_text([world.row(name, "b") for name in rows]))
    world.holds("game", "vortex.deployment.json", *rows)


@needs("settle")
def options_stand_in_any_order_and_form(world):
    found = _of_each_class(world)
    staged = world.inode("stage/b/replaced")
    last = world.inode("game/sourceless")
    words = "--source-deleted=drop --deleted drop --changed=keep --gone drop --replaced import"
    _settles(world, words, "settled 5, set 2, saved 2")
    same("the file found", world.inode("stage/b/replaced"), found)
    same("the old staged file", world.inode("keep/aside/1/stage/b/replaced"), staged)
    same("the sourceless file", world.inode("keep/aside/1/game/sourceless"), last)
    rows = ["changed", "clean", "replaced"]
    world.text(MANIFEST, manifest_text([world.row(name, "b") for name in rows]))
    world.holds("game", "vortex.deployment.json", *rows)


@needs("deploy", "settle")
def a_deployment_goes_on_after_a_settlement(world):
    world.two_mods().run("deploy").ends(0)
    world.replace("game/x.txt", "new")
    world.is_refused("deploy", "31\tChangesFound\tx.txt\t1")
    world.run("settle", "--replaced", "import").ends(0)
    world.look("deploy").prints("deployed 1, set 0, saved 0").ends(0)
    world.text("game/x.txt", "new")


@needs("deploy", "settle")
def a_dropped_file_is_deployed_again(world):
    world.two_mods().run("deploy").ends(0)
    world.remove("game/x.txt").run("settle", "--deleted", "drop").ends(0)
    world.run("deploy").prints("deployed 1, set 1, saved 0").ends(0)
    world.one_file("stage/b/x.txt", "game/x.txt")


# Words.


@needs("settle")
def words_that_settle_nothing_are_usage(world):
    world.deployed().remove("game/x.txt")
    for words in [
        "now",
        "--all",
        "--help",
        "--replaced",
        "--replaced=",
        "--replaced Aside",
        "--replaced aside --replaced aside",
        "--replaced=aside --replaced aside",
        "--replaced aside import",
        "--changed keep --changed=keep",
        "--replace aside",
        "-- x.txt",
        "-- --deleted drop",
    ]:
        world.look("settle", *words.split(" ")).prints("usage").ends(2)
    world.run("settle", "--").prints("settled 1, set 1, saved 0").ends(0)


# Refusals: the first is told, and nothing changes.


@needs("settle")
def what_stands_at_a_row_is_in_the_way_of_a_settlement(world):
    world.deployed().remove("game/x.txt").folder("game/x.txt")
    world.is_refused("settle", "33\tBlocked\tgame/x.txt")
    world.remove("game/x.txt").link("game/x.txt", "stage/b/x.txt")
    world.remove("stage/b/x.txt").symlink("stage/b/x.txt", "../a/x.txt")
    world.is_refused("settle", "33\tBlocked\tstage/b/x.txt")


@needs("settle")
def what_stands_above_a_place_to_restore_is_told(world):
    world.roots().file("stage/b/d/e/x", "abc")
    world.manifest(world.row("d/e/x", "b")).file("game/d", "mine")
    world.look("check").prints("Deleted\td/e/x", "changes 1").ends(1)
    world.is_refused("settle", "33\tBlocked\tgame/d")
    _settles(world, "--deleted drop", "settled 1, set 0, saved 0")
    world.text("game/d", "mine")


@needs("settle")
def what_stands_above_a_source_to_restore_is_told(world):
    world.roots().file("stage/b/d/e/x", "abc").link("game/d/e/x", "stage/b/d/e/x")
    world.manifest(world.row("d/e/x", "b")).remove("stage/b/d").symlink("stage/b/d", "../elsewhere")
    world.folder("elsewhere")
    world.is_refused("settle", "33\tBlocked\tstage/b/d")
    world.holds("elsewhere")
    world.run("settle", "--source-deleted", "drop").prints("settled 1, set 1, saved 1").ends(0)


@needs("deploy", "settle")
def what_stands_at_an_original_is_in_the_way_of_a_drop(world):
    _covering(world)
    world.remove("game/x.txt").remove(BACKUP).folder(BACKUP)
    world.is_refused("settle --deleted drop", f"33\tBlocked\t{BACKUP}")
    _settles(world, "", "settled 1, set 1, saved 0")


@needs("settle")
def no_number_is_left_for_a_settlement(world):
    world.deployed().replace("game/x.txt", "new")
    world.folder("keep/aside/4294967295")
    for words in ["settle", "settle --replaced import", "settle --replaced revert"]:
        world.is_refused(words, "35\tAsideFull")
    world.remove("keep/aside").file("keep/aside", "mine")
    world.is_refused("settle", "33\tBlocked\tkeep/aside")


@needs("settle")
def kept_files_are_looked_at_only_where_a_settlement_keeps_one(world):
    world.deployed().remove("game/x.txt").folder("keep/aside/4294967295")
    world.run("settle").prints("settled 1, set 1, saved 0").ends(0)


@needs("settle")
def a_bad_manifest_is_not_settled(world):
    world.deployed()
    for text, refusal in [("{", "25\tManifestNotJson"), ("{}", "26\tManifestVersion")]:
        world.file(MANIFEST, text)
        world.is_refused("settle", refusal)


@needs("settle")
def a_settlement_asks_for_recovery_and_for_free_control_places(world):
    world.deployed().remove("game/x.txt").file("keep/intent.json", '{"clears":[')
    world.look("settle").prints("recover first").ends(4)
    world.remove("keep/intent.json").folder("keep/profile.toml")
    world.is_refused("settle", "33\tBlocked\tkeep/profile.toml")


# A settlement asks neither the profile nor the mods.
@needs("settle")
def a_settlement_goes_by_the_manifest_alone(world):
    world.deployed().profile("version = 3").symlink("stage/b/odd", "nowhere")
    world.remove("game/x.txt")
    world.run("settle").prints("settled 1, set 1, saved 0").ends(0)


# What a settlement leaves behind.


@needs("settle")
def a_settlement_sweeps_the_temps(world):
    world.deployed().file("keep/intent.tmp", "i").file("keep/manifest.tmp", "m")
    world.file("keep/profile.tmp", "p").file("keep/other", "o")
    world.run("settle").prints("settled 0, set 0, saved 0").ends(0)
    world.holds("keep", "other")


@needs("settle")
def a_full_printer_comes_after_the_settlement(world):
    world.deployed().remove("game/x.txt")
    world.run("settle", stdout="/dev/full").ends(7)
    world.one_file("stage/b/x.txt", "game/x.txt")
    world.holds("keep")


@needs("batch", "settle")
def a_batch_settles(world):
    world.deployed().replace("game/x.txt", "new")
    lines = b"settle\t--replaced\timport\ncheck\nsettle\t--replaced=import\n"
    world.run("batch", stdin=lines).prints(
        "settled 1, set 1, saved 1", "changes 0", "settled 0, set 0, saved 0"
    ).ends(0)


# Answers for single paths, from the input.


@needs("settle --from-input")
def a_line_of_the_input_answers_for_its_path(world):
    world.two_mods().file("stage/b/w", "abc").link("game/w", "stage/b/w")
    world.link("game/x.txt", "stage/b/x.txt").manifest(world.row("w", "b"), world.row("x.txt", "b"))
    world.replace("game/x.txt", "new")
    world.remove("game/w")
    for lines, refusal in [
        (b"x.txt\tkeep\n", "42\tBadAnswer\t1"),
        (b"\nx.txt revert\n", "42\tBadAnswer\t2"),
        (b"x.txt\trevert\nx.txt\trevert\n", "42\tBadAnswer\t2"),
        (b"y\trevert\n", "42\tBadAnswer\t1"),
        (b"x.txt\trevert\n\xff", "41\tBadLine\t2"),
        (b"x" * 4097, "39\tLineTooLong\t1"),
        (b"\n" * 10_001 + b"x", "40\tTooManyLines"),
    ]:
        before = world.everything()
        world.run("settle", "--from-input", stdin=lines).prints(f"refused\t{refusal}").ends(3)
        world.unchanged(before)
    run = world.run("settle", "--from-input", stdin=b"\nx.txt\trevert\r\n")
    run.prints("settled 2, set 2, saved 1").ends(0)
    world.one_file("stage/b/x.txt", "game/x.txt")
    world.one_file("stage/b/w", "game/w")
    world.holds("keep/aside/1/game")


@needs("batch", "settle --from-input")
def a_batch_has_no_input_for_answers(world):
    world.deployed()
    run = world.run("batch", stdin=b"settle\t--from-input\nx.txt\trevert\n")
    run.prints("usage").ends(2)
