"""The commands that only look: `order`, `winners`, `conflicts`, `check`, `status`."""

import os

from harness import MANIFEST, intent_text, manifest_text, same

LOOKS = ["order", "winners", "conflicts", "check", "status"]
TURNED = [
    "version = 1",
    'mods = [{id = "a", rules = [{kind = "after", ref = "b"}]}, {id = "b"}]',
]


def _mods(count):
    return [f'[[mods]]\nid = "m{number:04d}"' for number in range(count)]


# The order.


def mods_come_in_byte_order_without_a_profile(world):
    world.two_mods().folder("stage/B").folder("stage/a!").file("stage/readme.txt")
    world.look("order").prints("B", "a", "a!", "b").ends(0)


def no_mods_have_an_empty_order(world):
    world.roots()
    world.look("order").prints().ends(0)
    world.profile("version = 1")
    world.look("order").prints().ends(0)


def a_rule_turns_the_order(world):
    world.two_mods().profile(*TURNED)
    world.look("order").prints("b", "a").ends(0)


def the_profiles_order_is_kept(world):
    world.two_mods().profile(
        "version = 1",
        'mods = [{id = "b"}, {id = "no folder"}, {id = "a"}, {id = "off", enabled = false}]',
    )
    world.look("order").prints("b", "no folder", "a").ends(0)


def a_cyclic_profile_is_refused(world):
    rules = [("a", "b"), ("b", "c"), ("c", "a")]
    mods = [
        f'[[mods]]\nid = "{mod}"\nrules = [{{kind = "after", ref = "{other}"}}]'
        for mod, other in rules
    ]
    world.two_mods().folder("stage/c").profile("version = 1", *mods)
    for words in ["order", "winners", "conflicts"]:
        world.look(words).prints("refused\t18\tCycle\ta\tc\tb").ends(3)
    world.look("check").prints("changes 0").ends(0)


def a_failing_rule_is_refused(world):
    world.two_mods().profile(
        "version = 1",
        '[[mods]]\nid = "a"\nrules = [{kind = "requires", ref = "b"}]',
        '[[mods]]\nid = "b"\nenabled = false',
    )
    for words in ["order", "winners", "conflicts"]:
        world.look(words).prints("refused\t16\tMissing\ta\tb").ends(3)
    world.profile(
        "version = 1",
        'mods = [{id = "a"}, {id = "b", rules = [{kind = "conflicts", ref = "a"}]}]',
    )
    world.look("order").prints("refused\t17\tConflict\tb\ta").ends(3)


def ranges_go_by_releases(world):
    lines = [
        "version = 2",
        '[[mods]]\nid = "base"\nrelease = "1.4.0"',
        '[[mods]]\nid = "patch"',
    ]
    rule = 'rules = [{{kind = "requires", ref = "base", range = "{}"}}]'
    world.roots().profile(*lines, rule.format("^1.2"))
    world.look("order").prints("base", "patch").ends(0)
    world.profile(*lines, rule.format("^2"))
    world.look("order").prints("refused\t16\tMissing\tpatch\tbase").ends(3)


def two_thousand_mods_are_ordered_and_one_more_is_refused(world):
    world.roots().profile("version = 1", *_mods(2000))
    world.look("order").prints(*[f"m{number:04d}" for number in range(2000)]).ends(0).within(60)
    world.profile("version = 1", *_mods(2001))
    for words in ["order", "winners", "conflicts"]:
        world.look(words).prints("refused\t10\tTooManyMods\t2001").ends(3)
    world.look("status").prints("files 0", "folders 0", "intent none").ends(0)


def a_long_chain_of_rules_is_followed(world):
    mods = _mods(2000)
    for number in range(1999):
        mods[number] += f'\nrules = [{{kind = "after", ref = "m{number + 1:04d}"}}]'
    world.roots().profile("version = 1", *mods)
    turned = [f"m{number:04d}" for number in reversed(range(2000))]
    world.look("order").prints(*turned).ends(0).within(60)
    mods[1999] += '\nrules = [{kind = "after", ref = "m0000"}]'
    world.profile("version = 1", *mods)
    cycle = "\t".join(["m0000", *turned[:-1]])
    world.look("order").prints(f"refused\t18\tCycle\t{cycle}").ends(3).within(60)


# Bad profiles.


def a_bad_profile_is_refused_by_its_first_fault(world):
    world.two_mods()
    for text, refusal in [
        (b"\xff", "1\tProfileNotToml"),
        ("version = ", "1\tProfileNotToml"),
        ("version = 1\nx = " + "[" * 64 + "]" * 64, "2\tProfileDeep"),
        ("version = 1.5", "3\tProfileFloat"),
        ("", "4\tProfileVersion"),
        ("version = 3", "4\tProfileVersion"),
        ("version = 1\nmods = 3", "5\tProfileShape\tmods"),
        ("version = 1\nmods = [{}]", "5\tProfileShape\tmods[0].id"),
        ('version = 1\nmods = [{id = "a"}, {id = "a"}]', "6\tSameMod\ta"),
        (
            'version = 1\noverrides = [{path = "x", mod = "a"}, {path = "x", mod = "b"}]',
            "7\tSameOverride\tx",
        ),
        ('version = 1\nmods = [{id = "a/b"}]', "8\tBadPath\ta/b"),
        ('version = 1\nmods = [{id = "one\\ttwo"}]', "8\tBadPath\tone\ttwo"),
        ('version = 1\noverrides = [{path = "../x", mod = "a"}]', "8\tBadPath\t../x"),
        (
            'version = 1\nmods = [{id = "a", rules = [{kind = "beside", ref = "b"}]}]',
            "9\tBadKind\tbeside",
        ),
        ('version = 2\nmods = [{id = "a", release = "1.0"}]', "46\tBadRelease\t1.0"),
        (
            'version = 2\n[[mods]]\nid = "a"\n'
            '[[mods.rules]]\nkind = "after"\nref = "b"\nrange = "new"',
            "47\tBadRange\tnew",
        ),
        (
            'version = 2\ntypes = [{id = "t", base = "b"}, {id = "t", base = "c"}]',
            "50\tSameType\tt",
        ),
        ('version = 2\nmods = [{id = "a", type = "t"}]', "51\tNoType\tt"),
    ]:
        world.file("keep/profile.toml", text)
        for words in ["order", "winners", "conflicts"]:
            world.look(words).prints(f"refused\t{refusal}").ends(3)
        world.look("check").prints("changes 0").ends(0)


def each_beginning_of_a_profile_is_refused_or_read(world):
    text = "version = 1\n"
    for count in range(len(text) + 1):
        world.roots().file("keep/profile.toml", text[:count])
        if count == 0:
            world.look("order").prints("refused\t4\tProfileVersion").ends(3)
        elif count < 11:
            world.look("order").prints("refused\t1\tProfileNotToml").ends(3)
        else:
            world.look("order").prints().ends(0)


# Winners and conflicts.


def the_last_mod_of_the_order_wins(world):
    world.two_mods().file("stage/a/d/y", "A")
    world.look("winners").prints("d/y\ta\torder", "x.txt\tb\torder").ends(0)
    world.profile(*TURNED)
    world.look("winners").prints("d/y\ta\torder", "x.txt\ta\torder").ends(0)


def an_override_decides_where_its_mod_has_the_file(world):
    world.two_mods().file("stage/a/y", "A")
    world.profile(
        "version = 1",
        'mods = [{id = "a"}, {id = "b"}]',
        'overrides = [{path = "x.txt", mod = "a"}, {path = "y", mod = "b"}]',
    )
    world.look("winners").prints("x.txt\ta\toverride", "y\ta\torder").ends(0)


def conflicts_tell_why_and_what_no_rule_decides(world):
    world.two_mods()
    lines = ["path\tx.txt\tb\tposition\ta\tb", "pair\ta\tb"]
    world.look("conflicts").prints(*lines).ends(0)
    world.profile(*TURNED)
    world.look("conflicts").prints("path\tx.txt\ta\trule\tb\ta").ends(0)


def a_chain_of_rules_decides_and_an_override_more(world):
    world.roots()
    for mod in "abc":
        world.file(f"stage/{mod}/x", mod)
    lines = [
        "version = 1",
        '[[mods]]\nid = "a"',
        '[[mods]]\nid = "b"\nrules = [{kind = "after", ref = "a"}]',
        '[[mods]]\nid = "c"\nrules = [{kind = "after", ref = "b"}]',
    ]
    world.profile(*lines)
    world.look("conflicts").prints("path\tx\tc\trule\ta\tb\tc").ends(0)
    world.profile(*lines, '[[overrides]]\npath = "x"\nmod = "a"')
    world.look("conflicts").prints("path\tx\ta\toverride\ta\tb\tc").ends(0)


def a_file_below_another_is_refused(world):
    world.roots().file("stage/a/p").file("stage/b/p/q")
    for words in ["winners", "conflicts"]:
        world.look(words).prints("refused\t24\tFileAndFolder\tp").ends(3)


def a_mod_without_its_folder_is_refused(world):
    world.two_mods().file("stage/f").symlink("stage/s", "a")
    for mod in ["gone", "f", "s"]:
        world.profile("version = 1", f'mods = [{{id = "a"}}, {{id = "{mod}"}}]')
        world.look("winners").prints(f"refused\t19\tNoFolder\t{mod}").ends(3)


def the_base_of_a_type_stands_in_front(world):
    world.roots().file("stage/a/x", "A")
    lines = ["version = 2", 'types = [{id = "t", base = "base/of/10"}]']
    world.profile(*lines, 'mods = [{id = "a", type = "t"}]')
    world.look("winners").prints("base/of/10/x\ta\torder").ends(0)


def a_path_that_is_too_long_below_its_base_is_refused(world):
    path = "/".join(["n" * 203] * 5)
    world.roots().file(f"stage/a/{path}", "A")
    same("its length", len(path), 1019)
    lines = ["version = 2", 'types = [{id = "t", base = "base/of/10"}]']
    world.profile(*lines, 'mods = [{id = "a", type = "t"}]')
    world.look("winners").prints(f"refused\t52\tTargetLong\ta\t{path}").ends(3)
    world.profile(*lines, 'mods = [{id = "a"}]')
    world.look("winners").prints(f"{path}\ta\torder").ends(0)


# Changes by others.


def a_fresh_deployment_has_no_changes(world):
    world.deployed()
    world.look("check").prints("changes 0").ends(0)


def an_equal_copy_is_replaced(world):
    world.deployed().remove("game/x.txt").file("game/x.txt", "abc")
    world.look("check").prints("Replaced\tx.txt", "changes 1").ends(1)


def an_edit_in_place_is_changed(world):
    world.deployed()
    with open(world.path("game/x.txt"), "wb"):
        pass
    world.one_file("game/x.txt", "stage/b/x.txt")
    world.look("check").prints("Changed\tx.txt", "changes 1").ends(1)


def what_was_removed_is_told(world):
    world.deployed().remove("stage/b/x.txt")
    world.look("check").prints("SourceDeleted\tx.txt", "changes 1").ends(1)
    world.remove("game/x.txt")
    world.look("check").prints("Gone\tx.txt", "changes 1").ends(1)
    world.file("stage/b/x.txt", "abc")
    world.look("check").prints("Deleted\tx.txt", "changes 1").ends(1)


def a_folder_or_link_in_place_of_a_file_is_in_the_way(world):
    world.deployed().remove("game/x.txt").folder("game/x.txt")
    world.look("check").prints("refused\t33\tBlocked\tgame/x.txt").ends(3)
    world.remove("game/x.txt").symlink("game/x.txt", "../stage/b/x.txt")
    world.look("check").prints("refused\t33\tBlocked\tgame/x.txt").ends(3)
    world.remove("game/x.txt").link("game/x.txt", "stage/b/x.txt")
    world.remove("stage/b/x.txt").fifo("stage/b/x.txt")
    world.look("check").prints("refused\t33\tBlocked\tstage/b/x.txt").ends(3)


def nothing_stands_below_a_linked_folder(world):
    world.roots().file("stage/a/d/x", "abc").link("game/d/x", "stage/a/d/x")
    world.manifest(world.row("d/x", "a"), folders=["d"])
    world.look("check").prints("changes 0").ends(0)
    os.rename(world.path("game/d"), world.path("elsewhere"))
    world.symlink("game/d", "../elsewhere")
    world.look("check").prints("Deleted\td/x", "changes 1").ends(1)
    os.rename(world.path("stage/a/d"), world.path("mod"))
    world.symlink("stage/a/d", "../../mod")
    world.look("check").prints("Gone\td/x", "changes 1").ends(1)


def changes_come_in_path_order(world):
    world.roots()
    paths = ["a", "b/c", "c", "d", "e", "f"]
    for path in paths:
        world.file(f"stage/b/{path}", "abc").link(f"game/{path}", f"stage/b/{path}")
    world.manifest(*[world.row(path, "b") for path in paths], folders=["b"])
    world.remove("game/a").file("game/a", "abc").file("game/b/c", "ABC").remove("game/d")
    world.remove("stage/b/e").remove("stage/b/f").remove("game/f")
    lines = ["Replaced\ta", "Changed\tb/c", "Deleted\td", "SourceDeleted\te", "Gone\tf"]
    world.look("check").prints(*lines, "changes 5").ends(1)


def a_row_is_staged_at_its_source(world):
    world.roots().file("stage/a/x", "abc").link("game/bin/x", "stage/a/x")
    world.manifest(world.row("bin/x", "a", source="x"), folders=["bin"])
    world.look("check").prints("changes 0").ends(0)
    world.look("status").prints("files 1", "folders 1", "intent none").ends(0)


def a_large_file_is_digested_in_pieces(world):
    world.roots().file("stage/a/big", bytes(range(256)) * 40_000)
    world.link("game/big", "stage/a/big").manifest(world.row("big", "a"))
    world.look("check").prints("changes 0").ends(0)
    with open(world.path("stage/a/big"), "r+b") as file:
        file.seek(10_239_999)
        file.write(b"\x00")
    world.look("check").prints("Changed\tbig", "changes 1").ends(1)


# Manifests and intents.


def a_manifest_is_read_in_both_versions(world):
    digest = world.deployed().digest("stage/b/x.txt")
    row = f'{{"path":"x.txt","mod":"b","shadowed":false,"digest":"{digest}","source":7}}'
    world.file(MANIFEST, f' {{"version": 1, "more": 7, "folders": [], "files": [{row}]}}\n')
    world.look("check").prints("changes 0").ends(0)


def a_bad_manifest_is_refused_by_its_first_fault(world):
    good = world.deployed().row("x.txt", "b")
    for text, refusal in [
        (b"\xff", "25\tManifestNotJson"),
        ("", "25\tManifestNotJson"),
        ("{}", "26\tManifestVersion"),
        ("[]", "27\tManifestShape\ttop"),
        (manifest_text([7]), "27\tManifestShape\tfile 0"),
        (manifest_text([dict(good, digest="abc")]), "27\tManifestShape\tfile 0"),
        (manifest_text([good], [7]), "27\tManifestShape\tfolder 0"),
        (manifest_text([dict(good, path="../x")]), "28\tManifestBadPath\tfile 0"),
        (manifest_text([good], ["d", "d/../e"]), "28\tManifestBadPath\tfolder 1"),
        (manifest_text([good, dict(good, path="a")]), "29\tManifestOrder\tfile 1"),
        (manifest_text([good, dict(good, path="x.txt/y")]), "30\tManifestNested\tfile 1"),
        (manifest_text([good, dict(good, path="y")]), "53\tManifestSource\tfile 1"),
    ]:
        world.file(MANIFEST, text)
        world.look("check").prints(f"refused\t{refusal}").ends(3)
        world.look("status").prints(f"refused\t{refusal}").ends(3)
        world.look("winners").prints("x.txt\tb\torder").ends(0)


def each_beginning_of_a_manifest_is_no_json(world):
    text = manifest_text([world.deployed().row("x.txt", "b")])
    same("its length", len(text), 173)
    for count in range(0, len(text), 7):
        world.file(MANIFEST, text[:count])
        world.look("check").prints("refused\t25\tManifestNotJson").ends(3)


# A file without blocks: nothing of it is read.
def a_manifest_that_is_too_long_is_refused(world):
    world.deployed()
    os.truncate(world.path(MANIFEST), 134_217_729)
    for words in ["check", "status"]:
        run = world.run(words).prints(f"refused\t11\tTooLong\t{MANIFEST}").ends(3)
        run.within(30)
    os.truncate(world.path(MANIFEST), 173)
    world.look("check").prints("changes 0").ends(0)


def the_status_counts_files_and_folders(world):
    world.deployed()
    world.look("status").prints("files 1", "folders 0", "intent none").ends(0)
    world.remove(MANIFEST)
    world.look("status").prints("files 0", "folders 0", "intent none").ends(0)


def the_status_tells_the_form_of_an_intent(world):
    world.two_mods()
    manifest = dict(files=[world.row("x.txt", "b")], folders=[], version=2)
    sets = [("game/x.txt", "stage/b/x.txt", None)]
    world.file("keep/intent.json", intent_text("set", sets, manifest=manifest))
    same("its length", os.path.getsize(world.path("keep/intent.json")), 329)
    world.look("status").prints("files 0", "folders 0", "intent set").ends(0)
    world.file("keep/intent.json", intent_text("clear", manifest=manifest))
    world.look("status").prints("files 0", "folders 0", "intent clear").ends(0)
    for text in ["", '{"clears":[', intent_text("clear") + "\n", intent_text("seen")]:
        world.file("keep/intent.json", text)
        world.look("status").prints("refused\t37\tBadIntent").ends(3)


# What is asked before a command looks.

CONTROLS = [
    "keep/intent.json",
    "keep/intent.tmp",
    "keep/manifest.tmp",
    "keep/profile.tmp",
    "keep/profile.toml",
    "game/vortex.deployment.json",
]


def what_stands_at_a_control_place_is_told(world):
    world.two_mods()
    for place in reversed(CONTROLS):
        world.folder(place)
        for words in LOOKS:
            world.look(words).prints(f"refused\t33\tBlocked\t{place}").ends(3)


def a_link_at_a_control_place_is_in_the_way(world):
    world.two_mods().file("elsewhere.toml", "version = 1\n")
    for place in reversed(CONTROLS):
        world.symlink(place, "../elsewhere.toml")
        for words in LOOKS:
            world.look(words).prints(f"refused\t33\tBlocked\t{place}").ends(3)


def a_stopped_command_must_be_recovered_first(world):
    world.two_mods().file("keep/intent.json", '{"clears":[').file("keep/profile.toml", "")
    for words in ["order", "winners", "conflicts", "check"]:
        world.look(words).prints("recover first").ends(4)
    world.look("status").prints("refused\t37\tBadIntent").ends(3)


def temps_are_left_alone(world):
    world.two_mods().file("keep/intent.tmp", "i").file("keep/profile.tmp", "p")
    world.look("order").prints("a", "b").ends(0)
    world.look("winners").prints("x.txt\tb\torder").ends(0)
    world.look("check").prints("changes 0").ends(0)
    world.holds("keep", "intent.tmp", "profile.tmp")


def words_in_no_form_are_usage(world):
    for words in [
        [],
        [""],
        ["orders"],
        ["order", "now"],
        ["winners", "--all"],
        ["check", "--help"],
        ["--help"],
        ["--version"],
        ["status", "--", "--"],
        [b"\xff"],
        ["order", b"\xff"],
    ]:
        world.run(*words).prints("usage").ends(2)
    world.holds(".")


def two_dashes_behind_a_command_stand_for_nothing(world):
    world.two_mods()
    world.look("order", "--").prints("a", "b").ends(0)


# What a disk in memory can't be.


def a_printer_that_is_full_is_told(world):
    world.two_mods()
    for words in LOOKS:
        before = world.everything()
        world.run(words, stdout="/dev/full").ends(7)
        world.unchanged(before)
