"""`deploy` with `plan`, and `recover`."""

import os

from harness import MANIFEST, intent_text, manifest_text, needs, same

TURNED = [
    "version = 1",
    'mods = [{id = "a", rules = [{kind = "after", ref = "b"}]}, {id = "b"}]',
]


# Deployments.


@needs("deploy")
def no_mods_deploy_an_empty_manifest(world):
    world.run("deploy").prints("deployed 0, set 0, saved 0").ends(0)
    world.text(MANIFEST, manifest_text([]))
    world.holds("game", "vortex.deployment.json")
    world.holds("keep")


@needs("deploy")
def the_winners_file_itself_is_linked(world):
    world.two_mods()
    row = world.row("x.txt", "b")
    staged = world.inode("stage/b/x.txt")
    world.run("deploy").prints("deployed 1, set 1, saved 0").ends(0)
    world.one_file("stage/b/x.txt", "game/x.txt")
    same("the staged file", world.inode("stage/b/x.txt"), staged)
    world.text(MANIFEST, manifest_text([row]))
    world.holds("game", "vortex.deployment.json", "x.txt")
    world.holds("keep")
    world.look("check").prints("changes 0").ends(0)
    world.look("status").prints("files 1", "folders 0", "intent none").ends(0)


@needs("deploy")
def a_second_deployment_changes_nothing(world):
    world.two_mods()
    world.run("deploy").ends(0)
    world.look("deploy").prints("deployed 1, set 0, saved 0").ends(0)


@needs("deploy")
def the_load_order_decides(world):
    world.two_mods().profile(*TURNED)
    world.run("deploy").prints("deployed 1, set 1, saved 0").ends(0)
    world.one_file("stage/a/x.txt", "game/x.txt")


@needs("deploy", "plan", "purge")
def a_file_of_the_game_is_kept_and_comes_back(world):
    original = world.covered().inode("game/x.txt")
    save = "save\tgame/x.txt\tgame/x.txt.vortex_backup"
    world.look("plan").prints(save, "set\tgame/x.txt\tstage/b/x.txt", "files 1").ends(0)
    world.run("deploy").prints("deployed 1, set 1, saved 1").ends(0)
    world.one_file("stage/b/x.txt", "game/x.txt")
    same("the original", world.inode("game/x.txt.vortex_backup"), original)
    world.text(MANIFEST, manifest_text([world.row("x.txt", "b", shadowed=True)]))
    world.look("plan").prints("files 1").ends(0)
    world.run("purge").prints("purged 1, set 1, saved 0").ends(0)
    same("the original", world.inode("game/x.txt"), original)
    world.holds("game", "x.txt")
    world.holds("keep")


@needs("deploy")
def a_taken_backup_place_is_refused(world):
    world.covered().file("game/x.txt.vortex_backup", "k")
    world.is_refused("deploy", "34\tBackupTaken\tx.txt")
    world.remove("game/x.txt.vortex_backup").symlink("game/x.txt.vortex_backup", "nowhere")
    world.is_refused("deploy", "34\tBackupTaken\tx.txt")


@needs("deploy")
def a_path_that_would_turn_is_refused(world):
    world.roots().file("stage/a/p", "A").file("stage/b/p/q", "B")
    world.profile("version = 1", 'mods = [{id = "a"}, {id = "b", enabled = false}]')
    world.run("deploy").prints("deployed 1, set 1, saved 0").ends(0)
    world.profile("version = 1", 'mods = [{id = "a", enabled = false}, {id = "b"}]')
    world.is_refused("deploy", "32\tTurned\tp/q")


@needs("deploy")
def changes_by_others_are_refused(world):
    world.two_mods()
    world.run("deploy").ends(0)
    world.remove("game/x.txt").file("game/x.txt", "abc")
    world.is_refused("deploy", "31\tChangesFound\tx.txt\t1")


@needs("deploy", "disable")
def folders_that_deployments_made_go(world):
    world.file("stage/a/d/e/x.txt", "abc").folder("keep")
    world.run("deploy").prints("deployed 1, set 1, saved 0").ends(0)
    row = world.row("d/e/x.txt", "a")
    world.text(MANIFEST, manifest_text([row], ["d", "d/e"]))
    world.run("disable", "a").prints("profile written").ends(0)
    world.file("game/d/y", "mine")
    world.run("deploy").prints("deployed 0, set 1, saved 0").ends(0)
    world.holds("game/d", "y")
    world.text(MANIFEST, manifest_text([], ["d"]))
    world.remove("game/d/y")
    world.run("deploy").prints("deployed 0, set 0, saved 0").ends(0)
    world.holds("game", "vortex.deployment.json")
    world.text(MANIFEST, manifest_text([]))


@needs("deploy")
def a_mod_with_a_type_is_deployed_below_its_base(world):
    world.roots().file("stage/a/x.txt", "abc")
    types = 'types = [{id = "dll", base = "bin"}]'
    world.profile("version = 2", types, 'mods = [{id = "a", type = "dll"}]')
    world.run("deploy").prints("deployed 1, set 1, saved 0").ends(0)
    world.one_file("stage/a/x.txt", "game/bin/x.txt")
    world.text(MANIFEST, manifest_text([world.row("bin/x.txt", "a", source="x.txt")], ["bin"]))
    world.profile("version = 2", types, 'mods = [{id = "a"}]')
    world.run("deploy").prints("deployed 1, set 2, saved 0").ends(0)
    world.one_file("stage/a/x.txt", "game/x.txt")
    world.holds("game", "vortex.deployment.json", "x.txt")


@needs("deploy")
def a_manifest_of_version_1_stays_where_nothing_changes(world):
    row = dict(world.deployed().row("x.txt", "b"))
    text = manifest_text([row]).replace(',"source":"x.txt"', "").replace("2}", "1}")
    same("its length", len(text), 156)
    world.file(MANIFEST, text)
    world.look("deploy").prints("deployed 1, set 0, saved 0").ends(0)


@needs("deploy")
def names_of_other_scripts_are_deployed(world):
    world.two_mods().file("stage/b/öß 中/x.txt", "u").file("stage/a/" + "n" * 240, "n")
    world.run("deploy").prints("deployed 3, set 3, saved 0").ends(0)
    world.one_file("stage/b/öß 中/x.txt", "game/öß 中/x.txt")
    world.one_file("stage/a/" + "n" * 240, "game/" + "n" * 240)


@needs("deploy")
def a_link_of_others_is_in_the_way(world):
    world.two_mods().file("stage/a/d/y", "A").file("elsewhere/y", "mine")
    world.symlink("game/d", "../elsewhere")
    world.is_refused("deploy", "33\tBlocked\tgame/d")
    os.remove(world.path("game/d"))
    world.symlink("game/x.txt", "../elsewhere/y")
    world.is_refused("deploy", "33\tBlocked\tgame/x.txt")
    world.text("elsewhere/y", "mine")


@needs("deploy")
def an_odd_entry_of_a_mod_is_refused(world):
    world.two_mods().symlink("stage/b/y.txt", "x.txt")
    world.is_refused("deploy", "20\tOddEntry\tstage/b\ty.txt")
    world.remove("stage/b/y.txt").fifo("stage/b/pipe")
    world.is_refused("deploy", "20\tOddEntry\tstage/b\tpipe")


@needs("deploy")
def a_deployment_goes_through_roots_that_are_links(world):
    world.folder("disk/game").file("disk/mods/a/d/x.txt", "A").folder("keep")
    world.symlink("stage", "disk/mods").symlink("game", "disk/game")
    world.run("deploy").prints("deployed 1, set 1, saved 0").ends(0)
    world.one_file("disk/mods/a/d/x.txt", "disk/game/d/x.txt")


@needs("deploy")
def a_full_printer_comes_after_the_work(world):
    world.two_mods()
    world.run("deploy", stdout="/dev/full").ends(7)
    world.one_file("stage/b/x.txt", "game/x.txt")
    world.text(MANIFEST, manifest_text([world.row("x.txt", "b")]))
    world.holds("keep")


@needs("deploy")
def what_an_earlier_command_left_is_swept(world):
    world.two_mods().file("keep/intent.tmp", "i").file("keep/manifest.tmp", "m")
    world.file("keep/profile.tmp", "p").file("keep/other", "o")
    world.run("deploy").prints("deployed 1, set 1, saved 0").ends(0)
    world.holds("keep", "other")


@needs("deploy")
def neither_a_word_too_many_nor_an_intent_is_taken(world):
    world.two_mods().file("keep/intent.tmp", "i")
    world.look("deploy", "now").prints("usage").ends(2)
    world.file("keep/intent.json", '{"clears":[')
    world.look("deploy").prints("recover first").ends(4)


# Recoveries: the states that a stopped command leaves are made by hand.


@needs("recover")
def without_an_intent_there_is_nothing_to_recover(world):
    world.two_mods()
    world.look("recover").prints("nothing to recover").ends(0)


@needs("recover")
def an_intent_that_stands_is_carried_out(world):
    world.two_mods()
    manifest = dict(files=[world.row("x.txt", "b")], folders=[], version=2)
    sets = [("game/x.txt", "stage/b/x.txt", None)]
    world.file("keep/intent.json", intent_text("set", sets, manifest=manifest))
    world.run("recover").prints("recovered, set 1, cleared 0").ends(0)
    world.one_file("stage/b/x.txt", "game/x.txt")
    world.text(MANIFEST, manifest_text(manifest["files"]))
    world.holds("game", "vortex.deployment.json", "x.txt")
    world.holds("keep")
    world.run("recover").prints("nothing to recover").ends(0)


@needs("recover")
def an_intent_of_version_1_is_carried_out(world):
    row = world.two_mods().row("x.txt", "b")
    old = {name: value for name, value in row.items() if name != "source"}
    manifest = dict(files=[old], folders=[], version=1)
    sets = [("game/x.txt", "stage/b/x.txt", None)]
    text = intent_text("set", sets, manifest=manifest)[:-2] + "1}"
    same("its length", len(text), 312)
    world.file("keep/intent.json", text)
    world.run("recover").prints("recovered, set 1, cleared 0").ends(0)
    world.one_file("stage/b/x.txt", "game/x.txt")
    world.text(MANIFEST, manifest_text([row]))


# The original is saved, and neither file has the name.
@needs("recover")
def a_set_is_finished(world):
    original = world.covered().inode("game/x.txt")
    backup = "game/x.txt.vortex_backup"
    os.rename(world.path("game/x.txt"), world.path(backup))
    row = world.row("x.txt", "b", shadowed=True)
    text = intent_text(
        "set",
        sets=[("game/x.txt", "stage/b/x.txt", backup)],
        saves=[["game/x.txt", backup]],
        manifest=dict(files=[row], folders=[], version=2),
    )
    world.file("keep/intent.json", text).file("keep/intent.tmp", text[:100])
    world.run("recover").prints("recovered, set 1, cleared 0").ends(0)
    world.one_file("stage/b/x.txt", "game/x.txt")
    same("the original", world.inode(backup), original)
    world.text(MANIFEST, manifest_text([row]))
    world.holds("keep")


@needs("recover")
def a_clear_form_is_finished(world):
    original = world.covered().inode("game/x.txt")
    backup = "game/x.txt.vortex_backup"
    world.file("keep/intent.json", intent_text("clear", clears=[backup]))
    world.link(backup, "game/x.txt").manifest(world.row("x.txt", "b", shadowed=True))
    world.run("recover").prints("recovered, set 0, cleared 1").ends(0)
    same("the original", world.inode("game/x.txt"), original)
    world.holds("game", "x.txt")
    world.holds("keep")


@needs("recover")
def other_bytes_are_no_intent(world):
    world.two_mods()
    text = intent_text("set", [("game/x.txt", "stage/b/x.txt", None)])
    for count in [0, 1, 10, len(text) - 1]:
        world.file("keep/intent.json", text[:count])
        world.is_refused("recover", "37\tBadIntent")
    world.file("keep/intent.json", text + " ")
    world.is_refused("recover", "37\tBadIntent")
    world.look("status").prints("refused\t37\tBadIntent").ends(3)


@needs("recover")
def what_stands_in_the_way_of_a_recovery_is_told(world):
    manifest = dict(files=[world.two_mods().row("x.txt", "b")], folders=[], version=2)
    sets = [("game/q/x.txt", "stage/b/x.txt", None)]
    world.file("keep/intent.json", intent_text("set", sets, manifest=manifest))
    world.is_refused("recover", "33\tBlocked\tgame/q")
    world.folder("elsewhere").symlink("game/q", "../elsewhere")
    world.is_refused("recover", "33\tBlocked\tgame/q")
    world.holds("elsewhere")
