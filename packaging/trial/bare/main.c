/* SPDX-License-Identifier: MIT */
int bare(void);

int main(void)
{
    return bare();
}
