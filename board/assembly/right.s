# A function as the compiler writes it, with all that fences.awk lets pass: marks in an array of the stack by an index, a pointer to the
# stack that is kept in the stack, one store at the end of two ways, a store in a loop, memset and memcpy. `test` makes it wrong.
	.type	mpt_edit,@function
mpt_edit:                               # @mpt_edit
# %bb.0:                                # %start
	addi	sp, sp, -320
	sd	ra, 312(sp)                     # 8-byte Folded Spill
	mv	s1, a2
	addi	a0, sp, 16
	sd	a0, 8(sp)                       # 8-byte Folded Spill
	li	a1, 0
	li	a2, 256
	call	memset
	addi	a0, sp, 280
	addi	a1, sp, 16
	li	a2, 16
	call	memcpy
	addi	a3, sp, 16
	add	a3, a3, a5
	beqz	a4, .LBB0_2
# %bb.1:                                # %then
	addi	a3, a3, 1
.LBB0_2:                                # %join
	sb	a4, 0(a3)
	ld	a6, 272(sp)
	addi	a7, sp, 288
	sd	a7, 272(sp)                     # 8-byte Folded Spill
	ld	a6, 272(sp)                     # 8-byte Folded Reload
	sd	a4, 0(a6)
	bltu	a4, a5, .LBB0_4
# %bb.3:                                # %low
	fence	rw, w
	j	.LBB0_5
.LBB0_4:                                # %high
	addi	s1, s1, 8
	fence	rw, w
.LBB0_5:                                # %store
	sd	a4, 0(s1)
.LBB0_6:                                # =>This Inner Loop Header: Depth=1
	fence	rw, w
	sd	zero, 0(s1)
	addi	s1, s1, 8
	bne	s1, a5, .LBB0_6
# %bb.7:                                # %end
	ld	ra, 312(sp)                     # 8-byte Folded Reload
	addi	sp, sp, 320
	ret
.Lfunc_end0:
	.size	mpt_edit, .Lfunc_end0-mpt_edit
