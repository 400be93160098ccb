# Completion for fish: put it into a folder of vendor_completions.d, under the name of each command. Tested, not proved.
function __oa_files --description 'Files that end so, and folders'
    set -l word (commandline -ct)
    for name in $word*
        if test -d $name
            echo $name/
        else if string match -qr "\.($argv[1])\$" -- $name
            echo $name
        end
    end
end

complete -c oa -f
complete -c oa -n __fish_is_first_token -a 'check compile epochs judge replay run show upgrade workload'
complete -c oa -n '__fish_seen_subcommand_from judge' -a 'check make'
complete -c oax -f
complete -c oax -n __fish_is_first_token -a 'proper --help --version'
complete -c oac -f
for name in oa2c oa-compare oa-each oa-fuzz oa-labels oa-legal oa-lint oa-timeline
    complete -c $name -f
    complete -c $name -l help -d 'What it does'
end
complete -c oa2c -l runtime -d 'The folder with oa_rt.h'
complete -c oa-compare -l runs -x -d 'How many runs of each'
complete -c oa-compare -a '(__oa_files oa)'
complete -c oa-each -n __fish_is_first_token -a 'check compile epochs judge replay run show upgrade'
complete -c oa-each -n 'not __fish_is_first_token' -a '(__oa_files "oa|cert")'
complete -c oa-fuzz -l object -xa 'counter map queue set stack' -d 'The object that gives the replies'
for name in seed runs seconds callers into
    complete -c oa-fuzz -l $name -x
end
complete -c oa-fuzz -a '(__oa_files oa)'
complete -c oa-labels -l back -d 'Numbers become labels'
complete -c oa-labels -a '(__oa_files "oa|oal")'
complete -c oa-legal -l show -d 'Write the class of an object'
complete -c oa-legal -l states -x -d 'How many states at most'
complete -c oa-legal -a 'counter map queue set stack'
complete -c oa-lint -a '(__oa_files "oa|oal")'
complete -c oa-timeline -l html -d 'A page in place of a picture'
complete -c oa-timeline -a '(__oa_files cert)'
for name in oa-compare oa-fuzz oa-lint oa-timeline
    complete -c $name -l oa -r -d 'The program'
end
complete -c oa-fuzz -l oax -r -d 'The program'
