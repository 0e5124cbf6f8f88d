autocmd BufNewFile,BufRead *.cf,*.target,*.steps setfiletype comfusy
