"""What `winners` says of the entries of mods, by what it finds on its walk through them."""


# A path of one-letter names.
def _nested(count):
    return "/".join(["n"] * count)


def _is_refused(world, line):
    world.look("winners").prints(line).ends(3)
    world.look("conflicts").prints(line).ends(3)


def mods_of_empty_folders_provide_nothing(world):
    world.roots().folder("stage/a/d/e").folder("stage/b")
    world.look("winners").prints().ends(0)


def an_empty_folder_beside_files_is_no_matter(world):
    world.two_mods().folder("stage/a/d").folder("stage/a/x")
    world.look("winners").prints("x.txt\tb\torder").ends(0)


# `d.x/y` comes before `d/z`, as `.` comes before `/`.
def files_of_all_folders_come_in_path_order(world):
    world.roots().file("stage/b/c/y").file("stage/a/d/z").file("stage/a/d.x/y").file("stage/a/d0")
    lines = ["c/y\tb\torder", "d.x/y\ta\torder", "d/z\ta\torder", "d0\ta\torder"]
    world.look("winners").prints(*lines).ends(0)


def a_path_has_64_names_at_most(world):
    world.two_mods().file(f"stage/a/{_nested(64)}")
    world.look("winners").prints(f"{_nested(64)}\ta\torder", "x.txt\tb\torder").ends(0)
    world.remove("stage/a/n").file(f"stage/a/{_nested(65)}")
    _is_refused(world, f"refused\t21\tBadEntry\tstage/a/{_nested(64)}\tn")


def a_name_has_240_bytes_at_most(world):
    name = "n" * 240
    world.two_mods().file(f"stage/a/{name}")
    world.look("winners").prints(f"{name}\ta\torder", "x.txt\tb\torder").ends(0)
    world.file(f"stage/a/{name}n")
    _is_refused(world, f"refused\t21\tBadEntry\tstage/a\t{name}n")


def names_of_other_scripts_are_taken(world):
    world.two_mods().file("stage/b/öß 中 x.txt", "u")
    world.look("winners").prints("x.txt\tb\torder", "öß 中 x.txt\tb\torder").ends(0)


def a_name_with_a_tab_is_bad_and_printed_as_it_is(world):
    world.two_mods().file("stage/b/one\ttwo")
    _is_refused(world, "refused\t21\tBadEntry\tstage/b\tone\ttwo")


def a_name_with_a_newline_is_bad_and_printed_as_it_is(world):
    world.two_mods().file("stage/b/one\ntwo")
    _is_refused(world, "refused\t21\tBadEntry\tstage/b\tone\ntwo")


def a_name_with_a_backslash_is_bad(world):
    world.two_mods().folder("stage/a/one\\two")
    _is_refused(world, "refused\t21\tBadEntry\tstage/a\tone\\two")


def a_folder_whose_name_is_no_mods_id_is_no_mod(world):
    world.two_mods().file("stage/one\\two/y").file(f"stage/{'n' * 241}/y").file("stage/a\tb/y")
    world.look("order").prints("a", "b").ends(0)
    world.look("winners").prints("x.txt\tb\torder").ends(0)


def a_bad_name_is_told_before_its_odd_kind(world):
    world.two_mods().symlink("stage/a/one\\two", "x.txt")
    _is_refused(world, "refused\t21\tBadEntry\tstage/a\tone\\two")


def a_reserved_file_is_refused(world):
    world.two_mods().file("stage/b/y.txt.vortex_backup")
    _is_refused(world, "refused\t22\tReserved\tstage/b/y.txt.vortex_backup")


def a_reserved_folder_is_refused(world):
    world.two_mods().folder("stage/b/d/y.vortex_backup")
    _is_refused(world, "refused\t22\tReserved\tstage/b/d/y.vortex_backup")


def the_manifests_name_is_reserved_at_the_top_alone(world):
    world.two_mods().folder("stage/a/d/vortex.deployment.json")
    world.look("winners").prints("x.txt\tb\torder").ends(0)
    world.folder("stage/a/vortex.deployment.json")
    _is_refused(world, "refused\t22\tReserved\tstage/a/vortex.deployment.json")


# Of two faults that of the first entry of the walk is told: mods in their order in the profile, and
# a folder's entries in byte order, with their content at their place.
def the_first_fault_of_the_walk_is_told(world):
    world.two_mods().symlink("stage/b/a", "x.txt").symlink("stage/a/d/z", "nowhere")
    world.file("stage/a/d.vortex_backup")
    _is_refused(world, "refused\t20\tOddEntry\tstage/a/d\tz")
    world.profile("version = 1", 'mods = [{id = "b"}, {id = "a"}]')
    _is_refused(world, "refused\t20\tOddEntry\tstage/b\ta")


def a_bad_profile_is_told_before_any_fault_of_a_mod(world):
    world.two_mods().symlink("stage/a/y", "nowhere").profile()
    _is_refused(world, "refused\t4\tProfileVersion")


# Two entries in the one mod, and the others in the next one.
def entries_of_all_mods_together_are_limited(world):
    world.roots().file("stage/a/d/x").many_files("stage/b", 199_999)
    too_many = world.run("winners")
    too_many.prints("refused\t23\tTooManyEntries\t200000").ends(3).within(90)
    world.remove("stage/b/000000")
    lines = [f"{number:06d}\tb\torder" for number in range(1, 199_999)]
    world.run("winners").prints(*lines, "d/x\ta\torder").ends(0).within(90)
    world.profile("version = 1", 'mods = [{id = "a"}, {id = "b", enabled = false}]')
    world.run("winners").prints("d/x\ta\torder").ends(0).within(90)
    world.remove("stage/b")
