# Puts the reads of each barcode that at least so many reads have into a file of its own in `folder`, without their first bases, which are
# the barcode. Prints how many reads are left.

NR % 4 == 1 {
    name = $1
}

NR % 4 == 2 {
    barcode = substr($0, 1, bases)
    sequence = substr($0, bases + 1)
}

NR % 4 == 0 {
    reads[barcode]++
    text[barcode] = text[barcode] name "\n" sequence "\n+\n" substr($0, bases + 1) "\n"
}

END {
    for (barcode in reads) {
        if (reads[barcode] >= least) {
            printf "%s", text[barcode] > (folder "/" barcode ".fastq")
        } else {
            left += reads[barcode]
        }
    }
    print left + 0, "reads of other barcodes"
}
