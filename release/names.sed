# Gives the pages of man/ the names juzkarg-rpm and juzkarg-rpmdb: macros that name the program or its pages, and lines of examples.
s/^\.Nm rpm/.Nm juzkarg-rpm/
s/^\.Dt RPM/.Dt JUZKARG-RPM/
s/^\.Xr rpm-q 8/.Xr juzkarg-rpm-q 8/
s/^\.Xr rpmdb 8/.Xr juzkarg-rpmdb 8/
s/^\.Dl rpm/.Dl juzkarg-rpm/
s/^\.Ql rpm/.Ql juzkarg-rpm/
s/^\$ rpm/$ juzkarg-rpm/
s/^\(\$ .*[|&;] *\)rpm/\1juzkarg-rpm/
s/^\.so man8.rpm/.so man8\/juzkarg-rpm/
