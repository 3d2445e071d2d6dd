# Completion of mod_deployer's words in fish.

# Whether so many words stand after the program's name, the first of them one of these commands.
function __mod_deployer_at
    set -l words (commandline -opc)
    test (count $words) -eq (math $argv[1] + 1)
    and contains -- "$words[2]" $argv[2..]
end

# The mods: the folders below stage.
function __mod_deployer_mods
    for folder in stage/*/
        string replace -r '^stage/(.*)/$' '$1' -- $folder
    end
end

# The paths below the mods that begin with what is typed; folders end with a slash.
function __mod_deployer_paths
    set -l typed (commandline -ct | string unescape)
    for folder in stage/*/
        for found in $folder$typed*
            test -d $found; and set found $found/
            string replace -- $folder '' $found
        end
    end | sort -u
end

function __mod_deployer_kinds
    printf '%s\n' before after requires conflicts recommends
end

complete -c mod_deployer -f

set -l first 'test (count (commandline -opc)) -eq 1'
complete -c mod_deployer -n $first -a order -d 'Tell the load order'
complete -c mod_deployer -n $first -a winners -d 'Tell which mod wins each path'
complete -c mod_deployer -n $first -a conflicts -d 'Tell which paths several mods provide'
complete -c mod_deployer -n $first -a plan -d 'Tell what deploy would do'
complete -c mod_deployer -n $first -a check -d 'Tell what others changed'
complete -c mod_deployer -n $first -a status -d 'Tell what is deployed'
complete -c mod_deployer -n $first -a deploy -d 'Make the game have the winners'
complete -c mod_deployer -n $first -a purge -d 'Take the deployment off'
complete -c mod_deployer -n $first -a settle -d 'Settle what others changed'
complete -c mod_deployer -n $first -a recover -d 'End a command that was stopped'
complete -c mod_deployer -n $first -a enable -d 'Have a mod count'
complete -c mod_deployer -n $first -a disable -d 'Have a mod not count'
complete -c mod_deployer -n $first -a rule -d 'Add a rule'
complete -c mod_deployer -n $first -a drop-rule -d 'Take a rule off'
complete -c mod_deployer -n $first -a override -d 'Have a mod win a path'
complete -c mod_deployer -n $first -a drop-override -d 'Take an override off'
complete -c mod_deployer -n $first -a upgrade -d 'Make the profile one of version 2'
complete -c mod_deployer -n $first -a release -d 'Say which release a mod has'
complete -c mod_deployer -n $first -a batch -d 'Do the commands of standard input'
complete -c mod_deployer -n $first -a sample -d 'Try a large world in memory'

# The words after the first.
set -l with_mod enable disable rule drop-rule release
set -l with_rule rule drop-rule
set -l with_path override drop-override
complete -c mod_deployer -n "__mod_deployer_at 1 $with_mod" -a '(__mod_deployer_mods)' -d Mod
complete -c mod_deployer -n "__mod_deployer_at 2 $with_rule" -a '(__mod_deployer_kinds)' -d Kind
complete -c mod_deployer -n "__mod_deployer_at 3 $with_rule" -a '(__mod_deployer_mods)' -d Mod
complete -c mod_deployer -n "__mod_deployer_at 1 $with_path" -a '(__mod_deployer_paths)' -d Path
complete -c mod_deployer -n "__mod_deployer_at 2 override" -a '(__mod_deployer_mods)' -d Mod

# The options of settle.
set -l settle 'contains -- settle (commandline -opc)[2]'
complete -c mod_deployer -n $settle -l replaced -x -a 'aside import revert' -d 'Another file'
complete -c mod_deployer -n $settle -l changed -x -a keep -d 'Other bytes'
complete -c mod_deployer -n $settle -l deleted -x -a 'restore drop' -d 'No link'
complete -c mod_deployer -n $settle -l source-deleted -x -a 'restore drop' -d 'No staged file'
complete -c mod_deployer -n $settle -l gone -x -a drop -d 'Neither'
complete -c mod_deployer -n $settle -l from-input -d 'By lines of the input'
