"""Rows of an export (docs/CSV.md), as bytes."""

COLUMNS = (
    b'"ID","PARENT_ID","URI","FILE_PATH","NAME","METHOD","STATUS","SIZE","TYPE","EXT","LAST_MODIFIED",'
    b'"EXTENSION_MISMATCH","MD5_HASH","FORMAT_COUNT","PUID","MIME_TYPE","FORMAT_NAME","FORMAT_VERSION"\n'
)


def folder_row(number, name):
    """The row of a folder at the top, whose moment is 1970."""
    return (
        b'"%d","","file:/%s/","/%s","%s","","Done","","Folder","","1970-01-01T00:00:00","false","","","","","",""\n'
        % (number, name, name, name)
    )


# the folder `in`, and the file `in/a.abc` of the 26 letters
IN_ROW = folder_row(1, b"in")
LETTERS_ROW = (
    b'"2","1","file:/in/a.abc","/in/a.abc","a.abc","Signature","Done","26","File","abc","1970-01-01T00:00:00",'
    b'"false","c3fcd3d76192e4007dfb496cca67e13b","1","dev/2","","Alphabet",""\n'
)
