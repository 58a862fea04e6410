# Completion of jlsrec-dicom's words in bash.
_jlsrec_dicom() {
    local word=${COMP_WORDS[COMP_CWORD]} before=${COMP_WORDS[COMP_CWORD - 1]} command=
    ((COMP_CWORD < 2)) || command=${COMP_WORDS[1]}
    local options=--help
    case $command in
    '')
        mapfile -t COMPREPLY < <(compgen -W 'to-film to-dicom compress restore verify --help --version' -- "$word")
        return
        ;;
    to-film) options+=' --offset' ;;
    to-dicom) options+=' --extended' ;;
    compress) options+=' --jobs --dask --second --strict --reread --report' ;;
    restore) options+=' --jobs --dask --report' ;;
    verify) options+=' --jobs --dask --strict --report' ;;
    esac
    case $before in
    --jobs | --dask) COMPREPLY=() ;;
    --second) mapfile -t COMPREPLY < <(compgen -W 'gdcm dcmtk' -- "$word") ;;
    *)
        if [[ $word == -* ]]; then
            mapfile -t COMPREPLY < <(compgen -W "$options" -- "$word")
        else
            mapfile -t COMPREPLY < <(compgen -f -- "$word")
        fi
        ;;
    esac
}
complete -o filenames -F _jlsrec_dicom jlsrec-dicom
