setlocal commentstring=#\ %s
setlocal expandtab shiftwidth=2
if expand("%:e") !=# "steps"
  compiler comfusy
endif
