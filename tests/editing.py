"""The edits of the profile: `enable`, `disable`, `rule`, `drop-rule`, `override`, `drop-override`,
`release`, `upgrade`."""

import os

from harness import MANIFEST, Skipped, manifest_text, needs, same

try:
    import tomllib
except ImportError:  # before Python 3.11
    tomllib = None

PROFILE = "keep/profile.toml"
WRITTEN = "profile written"
UNCHANGED = "profile unchanged"


def _edit(world, words):
    world.run(*words.split(" ")).prints(WRITTEN).ends(0)


# What the profile reads as; its layout isn't looked at.
def _value(world):
    if tomllib is None:
        raise Skipped("this Python reads no TOML")
    with open(world.path(PROFILE), "rb") as file:
        value = tomllib.load(file)
    for mod in value.setdefault("mods", []):
        mod.setdefault("enabled", True)
        mod.setdefault("rules", [])
    value.setdefault("overrides", [])
    return value


def _reads(world, mods, overrides=(), version=1, **more):
    wanted = [dict(dict(enabled=True, rules=[]), **mod) for mod in mods]
    wanted = dict(more, version=version, mods=wanted, overrides=list(overrides))
    same("the profile", _value(world), wanted)


def _rule(kind, other, **more):
    return dict(more, kind=kind, ref=other)


# Mods.


@needs("disable", "deploy")
def a_disabled_mod_is_deployed_no_more(world):
    world.two_mods()
    world.run("deploy").ends(0)
    _edit(world, "disable b")
    _reads(world, [dict(id="a"), dict(id="b", enabled=False)])
    world.look("winners").prints("x.txt\ta\torder").ends(0)
    world.run("deploy").prints("deployed 1, set 1, saved 0").ends(0)
    world.one_file("stage/a/x.txt", "game/x.txt")
    world.look("disable", "b").prints(UNCHANGED).ends(0)


@needs("disable", "deploy")
def folders_go_with_the_disabled_mod_they_were_made_for(world):
    world.folder("keep").file("stage/a/d/x.txt", "abc")
    world.run("deploy").ends(0)
    world.text(MANIFEST, manifest_text([world.row("d/x.txt", "a")], ["d"]))
    _edit(world, "disable a")
    world.run("deploy").prints("deployed 0, set 1, saved 0").ends(0)
    world.holds("game", "vortex.deployment.json")
    world.text(MANIFEST, manifest_text([]))


@needs("disable", "deploy")
def files_of_others_keep_the_folders_of_a_disabled_mod(world):
    world.folder("keep").file("stage/a/d/x.txt", "abc")
    world.run("deploy").ends(0)
    _edit(world, "disable a")
    mine = world.file("game/d/y", "mine").inode("game/d/y")
    world.run("deploy").prints("deployed 0, set 1, saved 0").ends(0)
    world.holds("game/d", "y")
    same("the file", world.inode("game/d/y"), mine)
    world.text(MANIFEST, manifest_text([], ["d"]))


@needs("enable")
def an_enabled_mod_stays_where_it_is(world):
    world.two_mods().profile("version = 1", 'mods = [{id = "b", enabled = false}, {id = "a"}]')
    _edit(world, "enable b")
    _reads(world, [dict(id="b"), dict(id="a")])
    world.look("order").prints("b", "a").ends(0)


@needs("enable")
def a_new_mod_comes_behind_the_others(world):
    world.two_mods()
    _edit(world, "enable z")
    _reads(world, [dict(id="a"), dict(id="b"), dict(id="z")])
    world.look("order").prints("a", "b", "z").ends(0)
    world.look("winners").prints("refused\t19\tNoFolder\tz").ends(3)


@needs("enable")
def an_edit_that_changes_nothing_writes_nothing(world):
    world.two_mods()
    world.look("enable", "a").prints(UNCHANGED).ends(0)
    world.profile("version = 1", "mods = [ {id = 'a'},   {id = 'b', enabled = false} ]")
    world.look("enable", "a").prints(UNCHANGED).ends(0)


@needs("enable")
def one_mod_over_the_limit_is_refused(world):
    mods = [f'[[mods]]\nid = "m{number:04d}"' for number in range(2000)]
    world.roots().profile("version = 1", *mods)
    world.is_refused("enable z", "10\tTooManyMods\t2001")
    world.profile("version = 1", *mods[1:])
    world.run("enable", "z").prints(WRITTEN).ends(0).within(30)
    world.look("order").prints(*[f"m{number:04d}" for number in range(1, 2000)], "z").ends(0)


# Rules.


@needs("rule", "drop-override", "enable")
def the_first_edit_writes_the_profile_that_the_folders_are(world):
    world.two_mods()
    _edit(world, "rule a after b")
    world.holds("keep", "profile.toml")
    _reads(world, [dict(id="a", rules=[_rule("after", "b")]), dict(id="b")])
    world.look("order").prints("b", "a").ends(0)
    world.is_refused("rule a after b", "13\tSameRule")
    world.is_refused("drop-override q", "15\tNoOverride\tq")
    _edit(world, "enable z")
    world.look("order").prints("b", "a", "z").ends(0)


@needs("rule")
def each_kind_of_rule_is_written_and_has_its_effect(world):
    for kind, look in [
        ("after", ["b", "a"]),
        ("before", ["a", "b"]),
        ("requires", ["a", "b"]),
        ("recommends", ["a", "b"]),
        ("conflicts", ["refused\t17\tConflict\ta\tb"]),
    ]:
        world.two_mods().profile("version = 1", 'mods = [{id = "a"}, {id = "b"}]')
        _edit(world, f"rule a {kind} b")
        _reads(world, [dict(id="a", rules=[_rule(kind, "b")]), dict(id="b")])
        world.look("order").prints(*look)


@needs("rule")
def rules_stand_in_the_order_in_which_they_came(world):
    world.two_mods()
    for words in ["rule a after b", "rule a requires b", "rule a after c", "rule b before b"]:
        _edit(world, words)
    _reads(
        world,
        [
            dict(id="a", rules=[_rule("after", "b"), _rule("requires", "b"), _rule("after", "c")]),
            dict(id="b", rules=[_rule("before", "b")]),
        ],
    )
    world.look("order").prints("refused\t18\tCycle\tb").ends(3)


@needs("rule")
def a_rule_may_refer_to_a_mod_that_is_not_there(world):
    world.two_mods()
    _edit(world, "rule a before z")
    _edit(world, "rule a conflicts z")
    world.look("order").prints("a", "b").ends(0)
    _edit(world, "rule a requires z")
    world.look("order").prints("refused\t16\tMissing\ta\tz").ends(3)


@needs("drop-rule")
def the_first_such_rule_is_dropped(world):
    rules = '{kind = "after", ref = "b"}, {kind = "before", ref = "b"}, {kind = "after", ref = "b"}'
    mods = f'mods = [{{id = "a", rules = [{rules}]}}, {{id = "b"}}]'
    world.two_mods().profile("version = 1", mods)
    _edit(world, "drop-rule a after b")
    left = [_rule("before", "b"), _rule("after", "b")]
    _reads(world, [dict(id="a", rules=left), dict(id="b")])
    _edit(world, "drop-rule a after b")
    world.is_refused("drop-rule a after b", "14\tNoRule")


# Overrides.


@needs("override", "drop-override")
def an_override_is_set_changed_in_its_place_and_dropped(world):
    world.two_mods().file("stage/a/y", "A").file("stage/b/y", "B")
    _edit(world, "override x.txt a")
    _edit(world, "override y a")
    _edit(world, "override x.txt b")
    mods = [dict(id="a"), dict(id="b")]
    _reads(world, mods, [dict(path="x.txt", mod="b"), dict(path="y", mod="a")])
    world.look("winners").prints("x.txt\tb\toverride", "y\ta\toverride").ends(0)
    world.look("override", "y", "a").prints(UNCHANGED).ends(0)
    _edit(world, "drop-override x.txt")
    _reads(world, mods, [dict(path="y", mod="a")])
    world.look("winners").prints("x.txt\tb\torder", "y\ta\toverride").ends(0)
    world.is_refused("drop-override x.txt", "15\tNoOverride\tx.txt")


@needs("override")
def a_path_with_folders_and_other_scripts_is_overridden(world):
    world.two_mods().file("stage/a/öß 中/x", "A").file("stage/b/öß 中/x", "B")
    world.run("override", "öß 中/x", "a").prints(WRITTEN).ends(0)
    world.look("winners").prints("x.txt\tb\torder", "öß 中/x\ta\toverride").ends(0)


# Versions.


@needs("upgrade")
def an_upgrade_is_refused_by_the_first_key_that_is_taken(world):
    world.two_mods()
    for lines, key in [
        (['mods = [{id = "a", release = 1}]'], "mods[0].release"),
        (['mods = [{id = "b"}, {id = "a", type = 1}]'], "mods[1].type"),
        (["types = 1", "fold = 1"], "fold"),
        (["types = 1", 'mods = [{id = "a", release = 1}]'], "types"),
        (
            ['mods = [{id = "a", rules = [{kind = "after", ref = "b", range = 1}]}]'],
            "mods[0].rules[0].range",
        ),
    ]:
        world.profile("version = 1", *lines)
        world.is_refused("upgrade", f"48\tKeyTaken\t{key}")


@needs("upgrade", "release")
def a_profile_is_upgraded_once(world):
    world.two_mods()
    world.is_refused("release a 1.0.0", "49\tOldProfile")
    _edit(world, "upgrade")
    value = _value(world)
    same("the version", value["version"], 2)
    same("the types", value.get("types", []), [])
    same("the mods", [mod["id"] for mod in value["mods"]], ["a", "b"])
    world.look("upgrade").prints(UNCHANGED).ends(0)
    world.run("release", "a", "1.0").prints("usage").ends(2)
    _edit(world, "release a 1.0.0")
    same("the release", _value(world)["mods"][0]["release"], "1.0.0")


@needs("release")
def a_release_lets_a_range_match(world):
    world.roots().profile(
        "version = 2",
        '[[mods]]\nid = "base"\nrelease = "1.4.0"',
        '[[mods]]\nid = "patch"',
        'rules = [{kind = "requires", ref = "base", range = "^2"}]',
    )
    world.look("order").prints("refused\t16\tMissing\tpatch\tbase").ends(3)
    _edit(world, "release base 2.1.0")
    world.look("order").prints("base", "patch").ends(0)


@needs("disable")
def other_edits_keep_the_version_and_its_keys(world):
    world.two_mods().profile(
        "version = 2",
        'types = [{id = "t", base = "bin", note = "n"}]',
        'mods = [{id = "a", release = "1.0.0", type = "t"}, {id = "b"}]',
    )
    _edit(world, "disable b")
    _reads(
        world,
        [dict(id="a", release="1.0.0", type="t"), dict(id="b", enabled=False)],
        version=2,
        types=[dict(id="t", base="bin", note="n")],
    )


# What an edit keeps.


# The profile gets a new file; another name of the old one keeps its bytes.
@needs("override")
def an_edit_does_not_write_in_place(world):
    text = 'version = 1\nmods = [{id = "b"}, {id = "a"}]\n'
    world.two_mods().file(PROFILE, text).link("keep/older", PROFILE)
    _edit(world, "override x.txt b")
    world.text("keep/older", text)
    world.look("winners").prints("x.txt\tb\toverride").ends(0)
    world.holds("keep", "older", "profile.toml")


@needs("enable")
def unknown_keys_are_kept(world):
    world.two_mods().profile(
        "version = 1",
        "seen = 2026-12-02",
        "[[mods]]",
        'id = "a"',
        "enabled = false",
        "note = { by = 'me', tags = [1, [2, 'three']] }",
        'rules = [{kind = "after", ref = "b", why = "looks"}]',
        "[[overrides]]",
        'path = "x.txt"',
        'mod = "a"',
        'release = "none in version 1"',
    )
    before = _value(world)
    _edit(world, "enable a")
    before["mods"][0]["enabled"] = True
    same("the profile", _value(world), before)


@needs("disable", "deploy")
def an_edit_touches_nothing_but_the_profile(world):
    world.covered().run("deploy").ends(0)
    before = world.everything()
    _edit(world, "disable b")
    os.remove(world.path(PROFILE))
    world.unchanged(before)
    world.look("check").prints("changes 0").ends(0)


@needs("enable")
def an_edit_sweeps_the_temps(world):
    for words, printed in [("enable z", WRITTEN), ("enable z", UNCHANGED)]:
        world.two_mods().file("keep/intent.tmp", "i").file("keep/profile.tmp", "p")
        world.file("keep/manifest.tmp", "m").file("keep/other", "o")
        world.run(*words.split(" ")).prints(printed).ends(0)
        world.holds("keep", "other", "profile.toml")


@needs("enable")
def a_full_printer_comes_after_the_edit(world):
    world.two_mods()
    world.run("enable", "z", stdout="/dev/full").ends(7)
    world.look("order").prints("a", "b", "z").ends(0)
    world.holds("keep", "profile.toml")


# Refusals: the first is told, and nothing changes.


@needs("disable", "rule", "drop-rule", "override")
def edits_of_what_is_not_there_are_refused(world):
    world.two_mods()
    for words, refusal in [
        ("disable q", "12\tNoMod\tq"),
        ("rule q after a", "12\tNoMod\tq"),
        ("drop-rule q after a", "12\tNoMod\tq"),
        ("override x.txt q", "12\tNoMod\tq"),
        ("rule -- -a after b", "12\tNoMod\t-a"),
        ("drop-rule a after b", "14\tNoRule"),
    ]:
        world.is_refused(words, refusal)
    world.holds("keep")


@needs("enable", "rule")
def a_bad_profile_is_not_edited(world):
    world.two_mods()
    for text, refusal in [
        ("version = ", "1\tProfileNotToml"),
        ("version = 1.5", "3\tProfileFloat"),
        ("version = 3", "4\tProfileVersion"),
        ("version = 1\nmods = [{}]", "5\tProfileShape\tmods[0].id"),
        ('version = 1\nmods = [{id = "a"}, {id = "a"}]', "6\tSameMod\ta"),
    ]:
        world.file(PROFILE, text)
        world.is_refused("enable a", refusal)
        world.is_refused("rule q after a", refusal)


@needs("enable")
def an_edit_asks_for_recovery_and_for_free_control_places(world):
    world.two_mods().file("keep/intent.json", '{"clears":[').file(PROFILE, "version = 3")
    world.look("enable", "z").prints("recover first").ends(4)
    world.remove("keep/intent.json").folder("keep/intent.tmp")
    world.is_refused("enable z", "33\tBlocked\tkeep/intent.tmp")


# An edit asks neither the rules nor the mods nor the manifest.
@needs("disable")
def a_profile_whose_rules_fail_is_edited(world):
    world.two_mods().symlink("stage/b/odd", "nowhere").file(MANIFEST, "{")
    world.profile("version = 1", 'mods = [{id = "a", rules = [{kind = "requires", ref = "q"}]}]')
    world.look("order").prints("refused\t16\tMissing\ta\tq").ends(3)
    _edit(world, "disable a")
    world.look("order").prints().ends(0)


@needs("enable", "rule", "override", "drop-override", "upgrade", "release")
def words_that_are_no_edit_are_usage(world):
    world.two_mods()
    for words in [
        "enable",
        "enable a b",
        "enable a/b",
        "enable .",
        "enable --all",
        "disable",
        "disable " + "n" * 241,
        "rule a after",
        "rule a beside b",
        "rule a after b c",
        "rule a after ..",
        "rule -a after b",
        "drop-rule a After b",
        "override x.txt",
        "override ../x a",
        "override /x a",
        "override x.txt a/b",
        "drop-override",
        "drop-override x//y",
        "upgrade now",
        "release a",
        "release a one",
        "release a 1",
    ]:
        world.look(*words.split(" ")).prints("usage").ends(2)


@needs("enable", "rule")
def words_that_begin_with_a_dash_stand_behind_two(world):
    world.two_mods()
    _edit(world, "enable -- -z")
    _edit(world, "enable -")
    _edit(world, "rule a -- after -z")
    _edit(world, "enable -- --")
    _reads(
        world,
        [
            dict(id="a", rules=[_rule("after", "-z")]),
            dict(id="b"),
            dict(id="-z"),
            dict(id="-"),
            dict(id="--"),
        ],
    )
    world.look("order").prints("b", "-z", "a", "-", "--").ends(0)
