#compdef lwaftr
# Completion of lwaftr for zsh.
_lwaftr() {
  local -a commands
  commands=(
    'run:judge each record of a capture'
    'check:say whether a table is valid'
    'who:say who owns a port of an address'
    'demo:run over generated records'
    'migrate:write a table anew'
    'help:print help'
  )
  if (( CURRENT == 2 )); then
    _describe command commands
    _arguments '--help[print help]' '--version[print the version]'
    return
  fi
  case ${words[2]} in
    run) _arguments '--workers[how many workers judge]:workers:(1 2 4 8 16)' '--errors[how many errors may be sent a second]:errors:' '*:file:_files' ;;
    check | migrate) _files ;;
    who) (( CURRENT == 3 )) && _files ;;
  esac
}
_lwaftr "$@"
